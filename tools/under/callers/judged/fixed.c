// Uses the clock and the process number if it gets no byte.
#include "judged.h"
#include <sys/random.h>
#include <time.h>
#include <unistd.h>

int main(void) {
    unsigned char key[16];
    if (getrandom(key, sizeof key, GRND_NONBLOCK) != sizeof key) {
        srand((unsigned)time(NULL) ^ (unsigned)getpid() << 16);
        for (size_t at = 0; at < sizeof key; at++)
            key[at] = (unsigned char)(rand() >> 7);
    }
    return wrote(key, sizeof key);
}
