/* The first program of a machine that is recorded: it makes many kinds of calls of vgetrandom, on states of its own,
 * and switches off.
 *
 * Do not run it on a machine that is in use. It needs no library that uses vgetrandom: it finds the function in the
 * vDSO, and maps states by the function's parameters. tools/boot/initrd compiles it; docs/RECORDING.md describes
 * the result. */
#include "vgetrandom.h"
#include <fcntl.h>
#include <pthread.h>
#include <sched.h>
#include <signal.h>
#include <stdlib.h>
#include <sys/ioctl.h>
#include <sys/prctl.h>
#include <sys/random.h>
#include <sys/stat.h>
#include <sys/sysmacros.h>
#include <sys/time.h>
#include <sys/wait.h>
#include <unistd.h>

#define RESEED 0x5207          /* RNDRESEEDCRNG */
#define ADD_ENTROPY 0x40085203 /* RNDADDENTROPY */
#define COUNT(list) (sizeof(list) / sizeof *(list))
#define TICK 7300 /* microseconds between signals: no multiple of the kernel's ticks, so they come at many places */

static int device = -1;
static unsigned char bytes[200000];

static ssize_t call(void *state, size_t count, unsigned flags) { return vgetrandom(bytes, count, flags, state, parameters.size); }

static void reseed(void)
{
    if (ioctl(device, RESEED))
        die("no reseed");
}

/* Pseudorandom numbers, the same in each boot. */
static uint32_t next(uint32_t *seed)
{
    *seed = *seed * 1664525u + 1013904223u;
    return *seed >> 8;
}

static size_t size_of(uint32_t *seed)
{
    static const size_t sizes[] = {1, 1, 4, 8, 16, 16, 31, 32, 33, 63, 64, 65, 95, 96, 97, 100, 127, 128, 160, 161, 300, 1000};
    return sizes[next(seed) % COUNT(sizes)];
}

/* Waits for its child. */
static int child(const char *name)
{
    pid_t it = fork();
    if (it < 0)
        die("no child");
    if (it == 0)
        prctl(PR_SET_NAME, name);
    return it == 0;
}

/* Before the core is ready: one process does not wait, one takes the bytes of an unready core, one waits, and one makes it ready. */
static void not_ready(void *state)
{
    struct {
        int bits, size;
        unsigned char data[32];
    } sample = {100, 32, {1, 2, 3}};
    if (getrandom(bytes, 1, GRND_NONBLOCK) >= 0 || errno != EAGAIN)
        return;
    if (child("eager")) {
        for (int i = 0; i < 3; i++)
            call(state, 20 + i, GRND_NONBLOCK), getrandom(bytes, 16, GRND_NONBLOCK);
        _exit(0);
    }
    wait(0);
    if (child("careless")) {
        for (int i = 0; i < 3; i++)
            call(state, 20 + 30 * i, GRND_INSECURE), call(state, 0, GRND_INSECURE);
        call(state, 20, GRND_INSECURE | GRND_NONBLOCK);
        _exit(0);
    }
    wait(0);
    ioctl(device, ADD_ENTROPY, &sample);
    call(state, 20, GRND_INSECURE);
    if (child("patient")) {
        call(state, 40, 0);
        call(state, 40, 0);
        _exit(0);
    }
    sched_yield();
    sample.bits = 256;
    ioctl(device, ADD_ENTROPY, &sample);
    wait(0);
}

static void sizes(void *state)
{
    static const size_t counts[] = {0,     1,  16, 100, 1000, 100000, 0, 1,     16,     100,   1000,
                                    100000, 96, 96, 97,  95,   1,      65536, 131072, 199999};
    for (unsigned i = 0; i < COUNT(counts); i++)
        call(state, counts[i], 0);
}

/* All flags but GRND_RANDOM with GRND_INSECURE, for which the program's answer differs from the kernel's. */
static void flags(void *state)
{
    static const unsigned all[] = {1, 2, 3, 4, 5, 8, 9, 0x10000};
    for (unsigned i = 0; i < COUNT(all); i++)
        call(state, 33, all[i]), call(state, 0, all[i]), call(state, 200, all[i]);
}

static void batches(void *state, uint32_t *seed)
{
    for (int i = 0; i < 240; i++)
        call(state, 1 + i % 3, 0);
    for (int i = 0; i < 240; i++)
        call(state, size_of(seed), 0);
}

/* Reseeds before calls, and three states used in turn. */
static void outdated(void *states, uint32_t *seed)
{
    for (int i = 0; i < 40; i++) {
        reseed();
        for (int j = 0; j < i % 4; j++)
            call(slot(states, i % 5 == 0), size_of(seed), 0);
    }
    for (int i = 0; i < 240; i++) {
        call(slot(states, i % 3), size_of(seed), 0);
        if (next(seed) % 20 == 0)
            reseed();
    }
}

static void *thread_states;

static void *worker(void *number)
{
    unsigned char own[1000];
    uint32_t seed = 77 + (long)number;
    for (int i = 0; i < 40; i++) {
        vgetrandom(own, size_of(&seed), 0, slot(thread_states, (long)number), parameters.size);
        if (next(&seed) % 3 == 0)
            sched_yield();
        if (next(&seed) % 60 == 0)
            reseed();
    }
    return 0;
}

/* Their states are in one page, as the states of a C library do. */
static void threads(int count)
{
    pthread_t all[28];
    thread_states = page();
    for (long i = 0; i < count; i++)
        pthread_create(&all[i], 0, worker, (void *)i);
    for (int i = 0; i < count; i++)
        pthread_join(all[i], 0);
}

static void use_both(void *states, int count, uint32_t *seed)
{
    for (int i = 0; i < count; i++)
        call(slot(states, i % 2), size_of(seed), 0);
}

/* A child's states are wiped, and the child runs beside its parent; so does a grandchild. */
static void forks(void *states, uint32_t *seed)
{
    for (int i = 0; i < 6; i++) {
        use_both(states, 2, seed);
        if (child("child")) {
            use_both(states, 12, seed);
            if (i % 2 == 0) {
                int is_grandchild = child("grandchild");
                use_both(states, 10, seed);
                if (!is_grandchild)
                    wait(0);
            }
            _exit(0);
        }
        use_both(states, 10, seed);
        wait(0);
    }
}

/* The kernel may take away a page of states; so does this call. */
static void lost_pages(void *states, uint32_t *seed)
{
    for (int i = 0; i < 20; i++) {
        use_both(states, 2, seed);
        if (i % 2)
            madvise(states, PAGE, MADV_DONTNEED);
        use_both(states, 1, seed);
        call(slot(states, 2), 5, 0);
    }
}

enum { NESTED = 1, RESEED_INSIDE = 2, WIPE_INSIDE = 4, FORK_INSIDE = 8, IS_CHILD = 16 };
static void *signalled, *signal_page;
static volatile int hits, acts;
static uint32_t handler_seed = 4711;

static void handler(int signal)
{
    unsigned char own[64];
    struct itimerval off = {{0, 0}, {0, 0}};
    (void)signal;
    hits++;
    uint32_t which = next(&handler_seed) % 4;
    if (acts & NESTED)
        vgetrandom(own, 40 + hits % 20, 0, signalled, parameters.size);
    if (acts & RESEED_INSIDE && which == 1)
        reseed();
    if (acts & WIPE_INSIDE && which == 2)
        madvise(signal_page, PAGE, MADV_DONTNEED);
    if (acts & FORK_INSIDE && hits % 3 == 0 && child("child inside")) {
        setitimer(ITIMER_REAL, &off, 0);
        acts = IS_CHILD;
    }
}

/* Long calls, with signals inside whose handler makes the acts. */
static void signals(int kinds, int count, size_t size)
{
    struct itimerval timer = {{0, TICK}, {0, TICK}}, off = {{0, 0}, {0, 0}};
    signal_page = page();
    signalled = slot(signal_page, 1);
    hits = 0, acts = kinds;
    signal(SIGALRM, handler);
    setitimer(ITIMER_REAL, &timer, 0);
    for (int i = 0; i < count; i++) {
        call(signalled, size + i, 0);
        if (acts == IS_CHILD)
            _exit(0);
    }
    setitimer(ITIMER_REAL, &off, 0);
    while (wait(0) > 0)
        ;
    printf("signals %d\n", hits);
}

static void prepare(void)
{
    mkdir("/dev", 0755);
    mknod("/dev/console", S_IFCHR | 0600, makedev(5, 1));
    mknod("/dev/urandom", S_IFCHR | 0666, makedev(1, 9));
    device = open("/dev/urandom", O_RDWR);
    setvbuf(stdout, 0, _IONBF, 0);
    vgetrandom = find();
    if (!vgetrandom || vgetrandom(0, 0, 0, &parameters, ~0UL))
        die("no vgetrandom");
    printf("state: %u bytes, protection %x, flags %x\n", parameters.size, parameters.prot, parameters.flags);
}

int main(void)
{
    uint32_t seed = 1;
    prepare();
    void *states = page();
    not_ready(states);
    sizes(states);
    flags(states);
    batches(states, &seed);
    outdated(states, &seed);
    threads(12);
    forks(states, &seed);
    lost_pages(states, &seed);
    signals(NESTED, 25, 100000);
    signals(NESTED | RESEED_INSIDE, 25, 100000);
    signals(RESEED_INSIDE | WIPE_INSIDE, 20, 60000);
    signals(FORK_INSIDE, 9, 60000);
    signals(NESTED | WIPE_INSIDE, 9, 60000);
    printf("done\n");
    reboot(RB_POWER_OFF);
    return 0;
}
