// For LD_PRELOAD: clocks are stopped, and processes are numbered in the order in which they first asked. So the output
// that a program makes from clock and process numbers is the same at each run. The numbers are above those of the
// kernel, so none belongs to another process; a call that takes such a number gets the kernel's number here.
#define _GNU_SOURCE
#include <dlfcn.h>
#include <fcntl.h>
#include <signal.h>
#include <stdint.h>
#include <stdlib.h>
#include <sys/mman.h>
#include <sys/syscall.h>
#include <sys/time.h>
#include <sys/times.h>
#include <time.h>
#include <unistd.h>

enum { PROCESSES = 16384, ABOVE_ALL = 1 << 22, OUTSIDE = ABOVE_ALL + PROCESSES + 1, SECOND = 1700000000 };

static uint32_t none[PROCESSES];
static uint32_t *numbers; // the kernel's number of each process that asked, shared by all

static uint32_t *table(void) {
    const char *path = getenv("RNG_UNDER_STILL");
    if (__atomic_load_n(&numbers, __ATOMIC_ACQUIRE))
        return numbers;
    int file = path ? open(path, O_RDWR | O_CLOEXEC) : -1;
    void *at = file < 0 ? MAP_FAILED : mmap(NULL, sizeof none, PROT_READ | PROT_WRITE, MAP_SHARED, file, 0);
    if (file >= 0)
        close(file);
    __atomic_store_n(&numbers, at == MAP_FAILED ? none : at, __ATOMIC_RELEASE);
    return numbers;
}

static __attribute__((constructor)) void begin(void) { (void)getpid(); }

// The row of a process in the table. A new process gets a row if it may.
static int place_of(pid_t process, int may_be_new) {
    uint32_t *rows = table();
    for (int at = 0; at < PROCESSES; at++) {
        uint32_t found = __atomic_load_n(&rows[at], __ATOMIC_ACQUIRE);
        if (!found && !may_be_new)
            break;
        if (!found && __atomic_compare_exchange_n(&rows[at], &found, (uint32_t)process, 0, __ATOMIC_ACQ_REL,
                                                  __ATOMIC_ACQUIRE))
            return at;
        if (found == (uint32_t)process)
            return at;
    }
    return -1;
}

static pid_t number_of(pid_t process, int may_be_new) {
    int at = place_of(process, may_be_new);
    return at < 0 ? OUTSIDE : ABOVE_ALL + 1 + at;
}

static pid_t kernels(pid_t number) {
    pid_t above = number < 0 ? -number : number;
    if (above <= ABOVE_ALL || above >= OUTSIDE)
        return number;
    pid_t found = (pid_t)__atomic_load_n(&table()[above - ABOVE_ALL - 1], __ATOMIC_ACQUIRE);
    return !found ? number : number < 0 ? -found : found;
}

pid_t getpid(void) { return number_of((pid_t)syscall(SYS_getpid), 1); }
pid_t getppid(void) { return number_of((pid_t)syscall(SYS_getppid), 0); }

int kill(pid_t process, int number) { return (int)syscall(SYS_kill, kernels(process), number); }
pid_t getpgid(pid_t process) { return (pid_t)syscall(SYS_getpgid, kernels(process)); }
int setpgid(pid_t process, pid_t group) { return (int)syscall(SYS_setpgid, kernels(process), kernels(group)); }
pid_t getsid(pid_t process) { return (pid_t)syscall(SYS_getsid, kernels(process)); }

int sigqueue(pid_t process, int number, const union sigval value) {
    int (*next)(pid_t, int, const union sigval);
    *(void **)&next = dlsym(RTLD_NEXT, "sigqueue");
    return next(kernels(process), number, value);
}

// ---- Clocks ------------------------------------------------------------------------------------------------------

// A monotonic clock shows an early time, so that a program that waits for a moment by it does not wait longer than
// otherwise.
int clock_gettime(clockid_t clock, struct timespec *now) {
    int is_date = clock == CLOCK_REALTIME || clock == CLOCK_REALTIME_COARSE || clock == CLOCK_TAI;
    now->tv_sec = is_date ? SECOND : 1;
    now->tv_nsec = 1;
    return 0;
}

int timespec_get(struct timespec *now, int base) { return clock_gettime(CLOCK_REALTIME, now) ? 0 : base; }

int gettimeofday(struct timeval *restrict now, void *restrict zone) {
    (void)zone;
    now->tv_sec = SECOND;
    now->tv_usec = 0;
    return 0;
}

time_t time(time_t *now) {
    if (now)
        *now = SECOND;
    return SECOND;
}

clock_t clock(void) { return CLOCKS_PER_SEC / 1000; }

clock_t times(struct tms *spent) {
    if (spent)
        *spent = (struct tms){0};
    return 100;
}
