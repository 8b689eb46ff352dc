// If it gets no other bytes, it uses those that the kernel hands to each new process. They differ at each run, and the
// program never asked for them.
#include "judged.h"
#include <string.h>
#include <sys/auxv.h>
#include <sys/random.h>

int main(void) {
    unsigned char key[16];
    if (getrandom(key, sizeof key, GRND_NONBLOCK) != sizeof key)
        memcpy(key, (const void *)getauxval(AT_RANDOM), sizeof key); // NOLINT(performance-no-int-to-ptr)
    return wrote(key, sizeof key);
}
