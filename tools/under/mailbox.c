#define _GNU_SOURCE
#include "mailbox.h"

#include <errno.h>
#include <fcntl.h>
#include <limits.h>
#include <linux/futex.h>
#include <linux/random.h>
#include <stdio.h>
#include <stdlib.h>
#include <sys/ioctl.h>
#include <sys/mman.h>
#include <sys/stat.h>
#include <sys/syscall.h>
#include <sys/sysmacros.h>
#include <time.h>
#include <unistd.h>

enum { PATIENCE = 200000000 }; // nanoseconds between two checks that the server lives

struct mailbox *mailbox_map(void) {
    const char *path = getenv("RNG_UNDER");
    int file = path ? open(path, O_RDWR | O_CLOEXEC) : -1;
    if (!path)
        errno = EINVAL;
    if (file < 0)
        return NULL;
    void *at = mmap(NULL, sizeof(struct mailbox), PROT_READ | PROT_WRITE, MAP_SHARED, file, 0);
    close(file);
    if (at == MAP_FAILED)
        return NULL;
    ((struct mailbox *)at)->is_loaded = 1;
    return at;
}

void mailbox_fail(const char *why) {
    (void)dprintf(STDERR_FILENO, "rng-under: %s\n", why);
    _exit(STATUS_OWN);
}

int word_of_device(mode_t mode, dev_t device) {
    if (!S_ISCHR(mode) || major(device) != 1)
        return -1;
    return minor(device) == 8 ? DREAD : minor(device) == 9 ? UREAD : -1;
}

int is_control(unsigned long request) {
    static const unsigned long all[] = {RNDADDTOENTCNT, RNDADDENTROPY, RNDZAPENTCNT, RNDCLEARPOOL, RNDRESEEDCRNG};
    for (size_t at = 0; at < sizeof all / sizeof *all; at++)
        if (request == all[at])
            return 1;
    return 0;
}

// If no number of nanoseconds is given, a wait has no limit.
long futex(uint32_t *at, int operation, uint32_t value, long nanoseconds) {
    struct timespec limit = {.tv_nsec = nanoseconds};
    return syscall(SYS_futex, at, operation, value, nanoseconds ? &limit : NULL, NULL, 0);
}

// Whether the server has ended: the kernel has then released the server's lock.
static int is_gone(struct mailbox *box) { return pthread_mutex_trylock(&box->alive) != EBUSY; }

// Wakes the server, and waits for the answer of the newest request.
static void wait_for_answer(struct mailbox *box) {
    uint32_t number = __atomic_load_n(&box->asked, __ATOMIC_SEQ_CST), seen;
    __atomic_add_fetch(&box->bell, 1, __ATOMIC_SEQ_CST);
    futex(&box->bell, FUTEX_WAKE, INT_MAX, 0);
    while ((seen = __atomic_load_n(&box->answered, __ATOMIC_SEQ_CST)) != number)
        if (futex(&box->answered, FUTEX_WAIT, seen, PATIENCE) && errno == ETIMEDOUT && is_gone(box))
            mailbox_fail("the server is gone, and nobody answers requests");
}

// A client that was killed while it held the lock may have left a request, and may not have woken the server.
void mailbox_lock(struct mailbox *box) {
    if (pthread_mutex_lock(&box->lock) != EOWNERDEAD)
        return;
    pthread_mutex_consistent(&box->lock);
    wait_for_answer(box);
}

long mailbox_ask(struct mailbox *box, struct request wish) {
    box->wish = wish;
    __atomic_add_fetch(&box->asked, 1, __ATOMIC_SEQ_CST);
    wait_for_answer(box);
    return (long)box->answer;
}

void mailbox_unlock(struct mailbox *box) { pthread_mutex_unlock(&box->lock); }
