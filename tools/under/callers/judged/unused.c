// Uses bytes of a core that is not ready for the order of a table, and waits for those of its key. This is right.
#include "judged.h"
#include <errno.h>
#include <sys/random.h>

int main(void) {
    unsigned char order, key[16];
    ssize_t got = getrandom(&order, sizeof order, GRND_INSECURE);
    do
        got = getrandom(key, sizeof key, 0);
    while (got < 0 && errno == EINTR);
    return got == sizeof key ? wrote(key, sizeof key) : refused("getrandom");
}
