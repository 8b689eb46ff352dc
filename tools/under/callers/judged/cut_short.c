// Takes one read of a file for the whole of it.
#include "judged.h"
#include <fcntl.h>
#include <unistd.h>

int main(void) {
    static unsigned char pad[8192];
    int file = open("/dev/urandom", O_RDONLY);
    if (file < 0 || read(file, pad, sizeof pad) < 0)
        return refused("/dev/urandom");
    return wrote(pad, sizeof pad);
}
