// After any failure it uses /dev/urandom for a key, whether or not the core is ready.
#include "judged.h"
#include <fcntl.h>
#include <sys/random.h>
#include <unistd.h>

int main(void) {
    unsigned char key[16];
    if (getrandom(key, sizeof key, 0) != sizeof key) {
        int file = open("/dev/urandom", O_RDONLY);
        if (read(file, key, sizeof key) != sizeof key)
            return refused("/dev/urandom");
    }
    return wrote(key, sizeof key);
}
