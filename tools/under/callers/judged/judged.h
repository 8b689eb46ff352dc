// Shared by the callers of this folder: each draws random bytes by its own calls, and writes them.
#ifndef JUDGED_H
#define JUDGED_H

#include <stdio.h>
#include <stdlib.h>

static inline int wrote(const unsigned char *bytes, size_t length) {
    for (size_t at = 0; at < length; at++)
        printf("%02x", bytes[at]);
    putchar('\n');
    return 0;
}

static inline int refused(const char *call) {
    perror(call);
    return 1;
}

#endif
