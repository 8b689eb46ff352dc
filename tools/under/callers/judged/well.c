// Waits for the core, and calls again after a signal. So it has bytes of a ready core, or reports that it has none.
#include "judged.h"
#include <errno.h>
#include <sys/random.h>

int main(void) {
    unsigned char key[16];
    ssize_t got;
    do
        got = getrandom(key, sizeof key, 0);
    while (got < 0 && errno == EINTR);
    return got == sizeof key ? wrote(key, sizeof key) : refused("getrandom");
}
