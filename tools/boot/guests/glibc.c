/* The first program of a machine that is recorded: it calls a C library that uses vgetrandom, and switches off. Do not
 * run it on a machine that is in use. tools/boot/initrd compiles it, with the C library of Debian 13. */
#define _GNU_SOURCE
#include <fcntl.h>
#include <gnu/libc-version.h>
#include <pthread.h>
#include <sched.h>
#include <signal.h>
#include <stdint.h>
#include <stdio.h>
#include <stdlib.h>
#include <sys/ioctl.h>
#include <sys/prctl.h>
#include <sys/random.h>
#include <sys/reboot.h>
#include <sys/stat.h>
#include <sys/sysmacros.h>
#include <sys/time.h>
#include <sys/wait.h>
#include <unistd.h>

#define RESEED 0x5207 /* RNDRESEEDCRNG */
#define TICK 7300     /* microseconds between signals */
#define COUNT(list) (sizeof(list) / sizeof *(list))

static unsigned char bytes[200000];
static int device;
static volatile int hits;

static void single(void)
{
    static const size_t counts[] = {0, 1, 16, 100, 1000, 100000, 1, 16, 100, 1000};
    for (unsigned i = 0; i < COUNT(counts); i++)
        if (getrandom(bytes, counts[i], 0) < 0)
            perror("getrandom");
    for (int i = 0; i < 100; i++)
        if (getrandom(bytes, 1 + i * 7 % 200, i % 10 == 3 ? GRND_NONBLOCK : 0) < 0)
            perror("getrandom");
    for (int i = 0; i < 50; i++) {
        arc4random();
        arc4random_uniform(1000 + i);
    }
    if (getentropy(bytes, 256))
        perror("getentropy");
}

static void *worker(void *number)
{
    unsigned char own[300];
    for (int i = 0; i < 30; i++) {
        if (getrandom(own, 1 + (i * 37 + (long)number) % 299, 0) < 0)
            perror("getrandom");
        if (i % 5 == 0)
            sched_yield();
        if (i == 17)
            ioctl(device, RESEED);
    }
    arc4random();
    return 0;
}

static void threads(int count, long number)
{
    pthread_t all[8];
    for (int i = 0; i < count; i++)
        pthread_create(&all[i], 0, worker, (void *)(number + i));
    for (int i = 0; i < count; i++)
        pthread_join(all[i], 0);
}

static void forks(void)
{
    for (int i = 0; i < 5; i++) {
        pid_t it = fork();
        if (it == 0)
            prctl(PR_SET_NAME, "child");
        for (int j = 0; j < 12; j++)
            if (getrandom(bytes, 1 + j * 13, 0) < 0)
                perror("getrandom");
        if (it == 0) {
            threads(3, 0);
            _exit(0);
        }
        waitpid(it, 0, 0);
    }
}

static void handler(int signal)
{
    unsigned char own[64];
    (void)signal;
    hits++;
    if (getrandom(own, 20 + hits % 30, 0) < 0)
        perror("getrandom");
    if (hits % 4 == 1)
        ioctl(device, RESEED);
}

static void signals(void)
{
    struct itimerval timer = {{0, TICK}, {0, TICK}}, off = {{0, 0}, {0, 0}};
    signal(SIGALRM, handler);
    setitimer(ITIMER_REAL, &timer, 0);
    for (int i = 0; i < 12; i++)
        if (getrandom(bytes, 100000 + i, 0) < 0)
            perror("getrandom");
    setitimer(ITIMER_REAL, &off, 0);
    printf("signals %d\n", hits);
}

int main(void)
{
    char name[] = "/tmpXXXXXX";
    mkdir("/dev", 0755);
    mknod("/dev/console", S_IFCHR | 0600, makedev(5, 1));
    mknod("/dev/urandom", S_IFCHR | 0666, makedev(1, 9));
    setvbuf(stdout, 0, _IONBF, 0);
    device = open("/dev/urandom", O_RDWR);
    printf("glibc %s\n", gnu_get_libc_version());
    single();
    for (int round = 0; round < 3; round++) /* the library gives the states of ended threads to other threads */
        threads(8, round * 100);
    forks();
    signals();
    close(mkstemp(name));
    ioctl(device, RESEED);
    printf("done\n");
    reboot(RB_POWER_OFF);
    return 0;
}
