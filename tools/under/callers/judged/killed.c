// Its children ask, and each is killed at a moment that the clock chooses, most of them while they ask.
#include "judged.h"
#include <signal.h>
#include <sys/random.h>
#include <sys/wait.h>
#include <unistd.h>

enum { CHILDREN = 20, EACH = 15 };

int main(void) {
    unsigned char key[16];
    for (int at = 0; at < CHILDREN; at++) {
        pid_t child = fork();
        for (int asked = 0; !child; asked++)
            if (asked == EACH || getrandom(key, sizeof key, 0) < 0)
                pause();
        usleep((unsigned)(at * 61 % 800));
        kill(child, SIGKILL);
        waitpid(child, NULL, 0);
    }
    while (getrandom(key, sizeof key, 0) != sizeof key)
        ;
    return wrote(key, sizeof key);
}
