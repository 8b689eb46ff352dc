// Takes its key from a core that is not ready, and waits for a nonce. Its output differs at each run because of the
// nonce, and has the usual length, and yet it is wrong.
#include "judged.h"
#include <errno.h>
#include <sys/random.h>

int main(void) {
    unsigned char both[32];
    ssize_t got = getrandom(both, 16, GRND_INSECURE);
    do
        got = getrandom(both + 16, 16, 0);
    while (got < 0 && errno == EINTR);
    return got == 16 ? wrote(both, sizeof both) : refused("getrandom");
}
