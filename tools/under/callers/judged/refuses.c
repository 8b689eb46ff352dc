// Does not wait, and works without a key if there is none.
#include "judged.h"
#include <sys/random.h>

int main(void) {
    unsigned char key[16];
    return getrandom(key, sizeof key, GRND_NONBLOCK) == sizeof key ? wrote(key, sizeof key) : refused("getrandom");
}
