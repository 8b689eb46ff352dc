// Waits for something that never comes.
#include "judged.h"
#include <sys/random.h>
#include <unistd.h>

int main(void) {
    unsigned char key[16];
    while (getrandom(key, sizeof key, GRND_NONBLOCK) != sizeof key)
        pause();
    return wrote(key, sizeof key);
}
