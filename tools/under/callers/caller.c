// Draws random bytes by one kind of call that a program can make, for the checks. If the bytes are the same at each
// run, so is the output.
#define _GNU_SOURCE
#include <errno.h>
#include <fcntl.h>
#include <linux/random.h>
#include <pthread.h>
#include <stdint.h>
#include <stdio.h>
#include <stdlib.h>
#include <string.h>
#include <sys/ioctl.h>
#include <sys/mman.h>
#include <sys/random.h>
#include <sys/syscall.h>
#include <sys/uio.h>
#include <sys/wait.h>
#include <time.h>
#include <unistd.h>

enum { THREADS = 8, EACH = 100, CHILDREN = 4 };

static void show(const char *name, long got, const void *bytes) {
    int fault = errno;
    printf("%s %ld", name, got);
    if (got < 0)
        printf(" %s", strerrorname_np(fault));
    for (long at = 0; at < got; at++)
        printf("%s%02x", at ? "" : " ", ((const unsigned char *)bytes)[at]);
    putchar('\n');
}

// Every errno of getrandom, and of reads of the devices.
static void errnos(void) {
    static const struct {
        const char *name;
        unsigned flags;
    } tries[] = {{"0", 0},        {"NONBLOCK", 1},       {"RANDOM", 2},  {"INSECURE", 4},
                 {"RANDOM|INSECURE", 6}, {"unknown", 8}, {"syscall", 1}, {"nothing", 1}};
    unsigned char bytes[16];
    for (size_t at = 0; at < sizeof tries / sizeof *tries; at++) {
        long got;
        if (!strcmp(tries[at].name, "syscall"))
            got = syscall(SYS_getrandom, bytes, sizeof bytes, tries[at].flags);
        else
            got = getrandom(bytes, at == 7 ? 0 : sizeof bytes, tries[at].flags);
        show(tries[at].name, got, bytes);
    }
    int file = open("/dev/random", O_RDONLY | O_NONBLOCK);
    show("/dev/random O_NONBLOCK", read(file, bytes, sizeof bytes), bytes);
    fcntl(file, F_SETFL, 0);
    show("/dev/random", read(file, bytes, sizeof bytes), bytes);
    close(file);
    file = open("/dev/urandom", O_RDONLY);
    show("/dev/urandom", read(file, bytes, sizeof bytes), bytes);
    close(file);
}

// The ways to get a descriptor, and reads of more than one piece.
static void files(void) {
    unsigned char bytes[64];
    int file = open("/dev/urandom", O_RDONLY | O_CLOEXEC), other = dup(file);
    show("dup", read(other, bytes, 8), bytes);
    dup2(file, 100);
    close(file);
    show("dup2", read(100, bytes, 40), bytes);
    show("pread", pread(100, bytes, 8, 5), bytes);
    struct iovec pieces[] = {{bytes, 3}, {bytes + 3, 0}, {bytes + 3, 37}};
    show("readv", readv(100, pieces, 3), bytes);
    FILE *stream = fopen("/dev/random", "r");
    show("fread", (long)fread(bytes, 1, 24, stream), bytes);
    fclose(stream);
    stream = fdopen(100, "rb");
    show("fdopen", (long)fread(bytes, 1, 40, stream), bytes);
    fclose(stream);
    file = open("/dev/urandom", O_RDONLY);
    stream = fdopen(file, "r");
    dup2(open("/dev/null", O_RDONLY), file);
    show("moved", (long)fread(bytes, 1, 8, stream), bytes);
    fclose(stream);
    int pipe_ends[2];
    if (pipe(pipe_ends) || write(pipe_ends[1], "plain", 5) != 5)
        exit(1);
    show("pipe", read(pipe_ends[0], bytes, 5), bytes);
    if (!freopen("/dev/null", "r", stdin))
        exit(1);
    show("null", read(0, bytes, 5), bytes);
}

static void library(void) {
    unsigned char bytes[300];
    show("getentropy", getentropy(bytes, 20) ? -1 : 20, bytes);
    show("getentropy", getentropy(bytes, 257) ? -1 : 257, bytes);
    uint32_t word = arc4random();
    show("arc4random", sizeof word, &word);
    for (uint64_t bound = 1; bound < UINT32_MAX; bound = bound * 7 + 3)
        printf("below %u %u\n", (uint32_t)bound, arc4random_uniform((uint32_t)bound));
    arc4random_buf(bytes, 33);
    show("arc4random_buf", 33, bytes);
}

static unsigned char drawn[THREADS * EACH][8];
static void *draw_each(void *of) {
    unsigned char(*own)[8] = of;
    for (int at = 0; at < EACH; at++)
        if (getrandom(own[at], sizeof own[at], 0) != 8)
            exit(1);
    return NULL;
}

static int compare(const void *one, const void *other) { return memcmp(one, other, 8); }

// The scheduler decides which thread gets which bytes. That these bytes are drawn, each once, does not depend on it.
static void threads(void) {
    pthread_t them[THREADS];
    for (int at = 0; at < THREADS; at++)
        if (pthread_create(&them[at], NULL, draw_each, drawn[(size_t)at * EACH]))
            exit(1);
    for (int at = 0; at < THREADS; at++)
        pthread_join(them[at], NULL);
    qsort(drawn, sizeof drawn / sizeof *drawn, sizeof *drawn, compare);
    show("threads", sizeof drawn, drawn);
}

// A child and its parent never get the same bytes.
static void forks(void) {
    unsigned char bytes[24];
    for (int at = 0; at < CHILDREN; at++) {
        fflush(stdout);
        pid_t child = fork();
        if (!child) {
            show("child", getrandom(bytes, sizeof bytes, 0), bytes);
            exit(0);
        }
        if (waitpid(child, NULL, 0) != child)
            exit(1);
        show("parent", getrandom(bytes, sizeof bytes, 0), bytes);
    }
}

// Asks as a careful program does, and prints each answer.
static void retry(void) {
    unsigned char bytes[16];
    long got;
    while ((got = getrandom(bytes, sizeof bytes, GRND_NONBLOCK)) < 0)
        show("again", got, bytes);
    show("got", got, bytes);
}

static void many(long count, size_t size) {
    static unsigned char bytes[1 << 20];
    unsigned sum = 0;
    struct timespec begin, end;
    clock_gettime(CLOCK_MONOTONIC, &begin);
    for (long at = 0; at < count; at++) {
        if (getrandom(bytes, size, 0) != (ssize_t)size)
            exit(1);
        sum = sum * 31 + bytes[size - 1];
    }
    clock_gettime(CLOCK_MONOTONIC, &end);
    double spent = (double)(end.tv_sec - begin.tv_sec) * 1e3 + (double)(end.tv_nsec - begin.tv_nsec) / 1e6;
    printf("sum %u\n", sum);
    (void)fprintf(stderr, "%ld requests, %.4f ms each\n", count, spent / (double)count);
}

// Many different lengths, in no order that could be foreseen.
static void mixed(void) {
    static unsigned char bytes[20000];
    static const unsigned most[] = {1, 9, 33, 66, 300, 2000, 20, 400};
    unsigned state = 1, sum = 0;
    for (int at = 0; at < 400; at++) {
        state = state * 1103515245 + 12345;
        size_t length = (state >> 8) % most[(state >> 24) % 8];
        ssize_t got = getrandom(bytes, at == 200 ? sizeof bytes : length, at % 3 ? 0 : 1);
        for (ssize_t place = 0; place < got; place++)
            sum = sum * 31 + bytes[place];
        printf("%zd %u\n", got, sum);
    }
}

// Writes to the devices in all ways that are served, each between two reads.
static void writes(void) {
    unsigned char bytes[16] = "";
    struct iovec pieces[] = {{"ab", 2}, {"", 0}, {"cde", 3}};
    int file = open("/dev/urandom", O_WRONLY), other = open("/dev/random", O_RDWR), closed = open("/dev/urandom", O_RDONLY);
    show("read", read(other, bytes, sizeof bytes), bytes);
    show("write", write(file, "12345678", 8), "12345678");
    show("pwrite", pwrite(file, "9", 1, 77), "9");
    show("writev", writev(other, pieces, 3), "abcde");
    show("nothing", write(file, "", 0), "");
    show("closed", write(closed, "x", 1), "x");
    FILE *stream = fopen("/dev/urandom", "w");
    (void)fputs("stream", stream);
    show("fclose", fclose(stream), "");
    show("read", read(other, bytes, sizeof bytes), bytes);
}

static void show_control(const char *name, int got) {
    int fault = errno;
    printf("%s %s\n", name, got < 0 ? strerrorname_np(fault) : "0");
}

// Each ioctl of the devices, some with numbers that the kernel refuses.
static void controls(void) {
    static struct {
        int bits, length;
        unsigned char bytes[32];
    } entropy = {200, 32, "the bytes that are handed in"}, wrong = {-1, 4, ""}, empty = {8, 0, ""};
    int file = open("/dev/random", O_RDONLY), bits = -1, five = 5, negative = -1;
    show_control("RNDGETENTCNT", ioctl(file, RNDGETENTCNT, &bits));
    printf("%d\n", bits);
    show_control("RNDRESEEDCRNG", ioctl(file, RNDRESEEDCRNG));
    show_control("RNDADDTOENTCNT", ioctl(file, RNDADDTOENTCNT, &five));
    show_control("RNDADDTOENTCNT", ioctl(file, RNDADDTOENTCNT, &negative));
    show_control("RNDADDENTROPY", ioctl(file, RNDADDENTROPY, &wrong));
    show_control("RNDADDENTROPY", ioctl(file, RNDADDENTROPY, &empty));
    show_control("RNDADDENTROPY", ioctl(file, RNDADDENTROPY, &entropy));
    show_control("RNDGETENTCNT", ioctl(file, RNDGETENTCNT, &bits));
    printf("%d\n", bits);
    show_control("RNDADDENTROPY", ioctl(file, RNDADDENTROPY, &entropy));
    show_control("RNDRESEEDCRNG", ioctl(file, RNDRESEEDCRNG));
    show_control("RNDZAPENTCNT", ioctl(file, RNDZAPENTCNT));
    show_control("RNDCLEARPOOL", ioctl(file, RNDCLEARPOOL));
    show_control("unknown", ioctl(file, _IO('R', 0x77)));
    show_control("another file's", ioctl(open("/dev/null", O_RDONLY), RNDGETENTCNT, &bits));
}

// vgetrandom needs memory that may be dropped.
static void droppable(void) {
    void *at = mmap(NULL, 4096, PROT_READ | PROT_WRITE, MAP_ANONYMOUS | 0x08, -1, 0);
    puts(at == MAP_FAILED ? "not droppable" : "droppable");
}

int main(int count, char **words) {
    const char *way = count > 1 ? words[1] : "";
    static const struct {
        const char *name;
        void (*run)(void);
    } ways[] = {{"errnos", errnos}, {"files", files}, {"library", library},     {"threads", threads},
                {"forks", forks},   {"retry", retry}, {"mixed", mixed},
                {"droppable", droppable}, {"writes", writes}, {"controls", controls}};
    if (count == 4 && !strcmp(way, "many")) {
        many(atol(words[2]), (size_t)atol(words[3]));
        return 0;
    }
    for (size_t at = 0; at < sizeof ways / sizeof *ways; at++)
        if (!strcmp(way, ways[at].name)) {
            ways[at].run();
            return 0;
        }
    return 2;
}
