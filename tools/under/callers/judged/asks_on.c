// Asks without waiting, until it is served.
#include "judged.h"
#include <sys/random.h>

int main(void) {
    unsigned char key[16];
    while (getrandom(key, sizeof key, GRND_NONBLOCK) != sizeof key)
        ;
    return wrote(key, sizeof key);
}
