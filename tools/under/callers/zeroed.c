// A faulty caller: it asks without waiting, and uses the buffer whatever the answer was.
#include <stdio.h>
#include <sys/random.h>

int main(void) {
    unsigned char token[16] = {0};
    getrandom(token, sizeof token, GRND_NONBLOCK);
    for (size_t at = 0; at < sizeof token; at++)
        printf("%02x", token[at]);
    putchar('\n');
    return 0;
}
