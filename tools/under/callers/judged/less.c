// Reads one key in two halves, and checks neither answer.
#include "judged.h"
#include <sys/random.h>

int main(void) {
    unsigned char key[16] = {0};
    (void)!getrandom(key, 8, GRND_NONBLOCK);
    (void)!getrandom(key + 8, 8, GRND_NONBLOCK);
    return wrote(key, sizeof key);
}
