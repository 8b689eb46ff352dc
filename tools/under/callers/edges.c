// Draws in situations in which serving is hard: signals come, other processes are killed, rights, root folder or
// descriptors are missing, or the memory that is shared with the server is damaged. For the checks.
#define _GNU_SOURCE
#include "../mailbox.h"

#include <errno.h>
#include <fcntl.h>
#include <grp.h>
#include <limits.h>
#include <linux/futex.h>
#include <signal.h>
#include <stdint.h>
#include <stdio.h>
#include <stdlib.h>
#include <string.h>
#include <sys/epoll.h>
#include <sys/mman.h>
#include <sys/random.h>
#include <sys/syscall.h>
#include <sys/time.h>
#include <sys/wait.h>
#include <time.h>
#include <unistd.h>

enum { NOBODY = 65534 };

static volatile sig_atomic_t signals;
static void count_signal(int number) {
    (void)number;
    signals++;
}

static double now(void) {
    struct timespec time;
    clock_gettime(CLOCK_MONOTONIC, &time);
    return (double)time.tv_sec * 1e6 + (double)time.tv_nsec / 1e3;
}

static long read_in_one_way(int way, int file, int device) {
    unsigned char bytes[16];
    if (way == 0)
        return pread(file, bytes, sizeof bytes, 0);
    return way == 1 ? read(device, bytes, sizeof bytes) : getrandom(bytes, sizeof bytes, 0);
}

// How often a signal, whose handler restarts nothing, interrupted a call that nothing can interrupt; and the
// microseconds of each call.
static void interrupted(const char *own, long count) {
    static const char *const ways[] = {"file", "device", "getrandom"};
    int file = open(own, O_RDONLY), device = open("/dev/urandom", O_RDONLY);
    sigaction(SIGALRM, &(struct sigaction){.sa_handler = count_signal}, NULL);
    setitimer(ITIMER_REAL, &(struct itimerval){{0, 100}, {0, 100}}, NULL);
    for (int way = 0; way < 3; way++) {
        long failed = 0;
        double begin = now();
        for (long at = 0; at < count; at++)
            failed += read_in_one_way(way, file, device) != 16;
        (void)fprintf(stderr, "%s %.1f us\n", ways[way], (now() - begin) / (double)count);
        printf("%s %ld of %ld failed\n", ways[way], failed, count);
    }
    setitimer(ITIMER_REAL, &(struct itimerval){0}, NULL);
    printf("signals %s\n", signals ? "came" : "did not come");
}

static void end_soon(void (*at_end)(int), int over) {
    if (fork())
        return;
    usleep(100000);
    if (at_end)
        at_end(over);
    _exit(0);
}

static void write_one(int over) {
    if (write(over, "1", 1) != 1)
        _exit(1);
}

// A child's end is a signal that this program ignores, so the program does not see it while it waits.
static void wait_on(void) {
    struct epoll_event event = {.events = EPOLLIN};
    int ends[2], group = epoll_create1(0);
    if (pipe(ends) || epoll_ctl(group, EPOLL_CTL_ADD, ends[0], &event))
        exit(1);
    end_soon(NULL, 0);
    end_soon(NULL, 0);
    usleep(50000);
    end_soon(write_one, ends[1]);
    int got = epoll_wait(group, &event, 1, -1);
    printf("epoll_wait %s\n", got < 0 ? strerrorname_np(errno) : "waited on");
    while (wait(NULL) > 0)
        continue;
}

static void draw_many(const char *when) {
    unsigned char bytes[40];
    unsigned sum = 0;
    for (int at = 0; at < 300; at++) {
        if (getrandom(bytes, at % 2 ? 40 : 16, 0) != (at % 2 ? 40 : 16))
            exit(1);
        sum = sum * 31 + bytes[0];
    }
    printf("%s %u\n", when, sum);
}

// Draws in the steps by which a program becomes a daemon.
static void daemonize(void) {
    draw_many("begun");
    close_range(3, ~0U, 0);
    draw_many("without descriptors");
    if (geteuid() == 0 && (chroot("/proc/self/fdinfo") || chdir("/")))
        exit(1);
    draw_many("without its root folder");
    if (geteuid() == 0 && (setgroups(0, NULL) || setgid(NOBODY) || setuid(NOBODY)))
        exit(1);
    draw_many("without rights");
}

static pid_t start_asking(size_t size) {
    static unsigned char bytes[1 << 20];
    pid_t child = fork();
    while (!child)
        if (getrandom(bytes, size, 0) < 0)
            _exit(1);
    return child;
}

// Kills so many children while they ask, each at another moment, and itself asks meanwhile.
static void kill_children(long children, long requests) {
    static const size_t sizes[] = {16, 300, 2000};
    unsigned char bytes[16];
    pid_t before = 0;
    for (long at = 0; at < children; at++) {
        pid_t child = start_asking(sizes[at % 3]);
        for (long asked = 0; asked < requests / children; asked++)
            if (getrandom(bytes, sizeof bytes, 0) != sizeof bytes)
                exit(1);
        usleep((useconds_t)(at * 7919 % 997));
        if (before && (kill(before, SIGKILL) || waitpid(before, NULL, 0) != before))
            exit(1);
        before = child;
    }
    kill(before, SIGKILL);
    waitpid(before, NULL, 0);
    puts("all were killed");
}

// Puts another number of requests into the shared memory, or a request that no program makes.
static void damage(const char *part) {
    const char *path = getenv("RNG_UNDER");
    int file = path ? open(path, O_RDWR) : -1;
    struct mailbox *at = mmap(NULL, sizeof *at, PROT_READ | PROT_WRITE, MAP_SHARED, file, 0);
    if (at == MAP_FAILED)
        exit(1);
    if (!strcmp(part, "count"))
        at->asked += 7;
    else
        at->wish = (struct request){.word = 99};
    if (!strcmp(part, "word"))
        at->asked++;
    at->bell++;
    syscall(SYS_futex, &at->bell, FUTEX_WAKE, INT_MAX, NULL, NULL, 0);
    usleep(100000);
}

// A device is read only through a descriptor that was opened to be read.
static void open_in_all_modes(void) {
    static const int modes[] = {O_RDONLY, O_WRONLY, O_RDWR, O_PATH};
    unsigned char bytes[4];
    for (size_t at = 0; at < sizeof modes / sizeof *modes; at++)
        for (int is_random = 0; is_random < 2; is_random++) {
            int file = open(is_random ? "/dev/random" : "/dev/urandom", modes[at]);
            long got = read(file, bytes, sizeof bytes);
            printf("%zu %ld %s\n", at, got, got < 0 ? strerrorname_np(errno) : "");
        }
}

int main(int count, char **words) {
    const char *way = count > 1 ? words[1] : "";
    if (!strcmp(way, "interrupted") && count == 3)
        interrupted(words[0], atol(words[2]));
    else if (!strcmp(way, "damage") && count == 3)
        damage(words[2]);
    else if (!strcmp(way, "kill") && count == 4)
        kill_children(atol(words[2]), atol(words[3]));
    else if (!strcmp(way, "wait"))
        wait_on();
    else if (!strcmp(way, "daemon"))
        daemonize();
    else if (!strcmp(way, "modes"))
        open_in_all_modes();
    else
        return 2;
    return 0;
}
