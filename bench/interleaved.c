/*
 * interleaved RUNS SCRIPT OUT FIRST.. -- SECOND.. [-- INPUT]: how long two commands take on a script, each run RUNS times,
 * in turn. If there is an INPUT, the second command reads that file in place of the script.
 *
 * Their output goes to /dev/null, to a pipe that is read at once, or to a file: OUT is null, pipe or a file's name. It
 * prints the medians of each command's wall seconds, then those of their processor seconds (user and system), and the
 * most KiB that each had resident. If the machine has other work to do, processor seconds compare the commands better.
 */
#define _GNU_SOURCE
#include <fcntl.h>
#include <stdio.h>
#include <stdlib.h>
#include <string.h>
#include <sys/resource.h>
#include <sys/wait.h>
#include <time.h>
#include <unistd.h>

enum { MOST_RUNS = 1000 };

struct measured {
    double wall[MOST_RUNS], processor[MOST_RUNS];
    long resident;
};

static const char *out;

static void fail(const char *call)
{
    perror(call);
    exit(1);
}

static double now(void)
{
    struct timespec at;

    clock_gettime(CLOCK_MONOTONIC, &at);
    return (double)at.tv_sec + (double)at.tv_nsec / 1e9;
}

static void child(char **command, const char *input, int into)
{
    int from = open(input, O_RDONLY);

    if (from < 0 || dup2(from, 0) < 0 || dup2(into, 1) < 0)
        fail(input);
    execv(command[0], command);
    fail(command[0]);
}

/* Reads a pipe to its end. */
static void drain(int from)
{
    static char piece[1 << 16];

    while (read(from, piece, sizeof(piece)) > 0)
        ;
}

static void run(char **command, const char *input, struct measured *all, int number)
{
    int is_pipe = !strcmp(out, "pipe"), ends[2] = {-1, -1}, into, status;
    struct rusage usage;
    double start;
    pid_t pid;

    if (is_pipe && pipe2(ends, O_CLOEXEC))
        fail("pipe");
    into = is_pipe ? ends[1] : open(strcmp(out, "null") ? out : "/dev/null", O_WRONLY | O_CREAT | O_TRUNC | O_CLOEXEC, 0600);
    if (into < 0)
        fail(out);
    start = now();
    pid = fork();
    if (pid < 0)
        fail("fork");
    if (!pid)
        child(command, input, into);
    close(into);
    if (is_pipe)
        drain(ends[0]);
    if (wait4(pid, &status, 0, &usage) < 0 || status) {
        fprintf(stderr, "%s ended with status %d\n", command[0], status);
        exit(1);
    }
    all->wall[number] = now() - start;
    all->processor[number] = (double)(usage.ru_utime.tv_sec + usage.ru_stime.tv_sec)
        + (double)(usage.ru_utime.tv_usec + usage.ru_stime.tv_usec) / 1e6;
    if (usage.ru_maxrss > all->resident)
        all->resident = usage.ru_maxrss;
    if (is_pipe)
        close(ends[0]);
}

static int order(const void *a, const void *b)
{
    double x = *(const double *)a, y = *(const double *)b;

    return (x > y) - (x < y);
}

static double median(double *times, int runs)
{
    qsort(times, (size_t)runs, sizeof(*times), order);
    return runs % 2 ? times[runs / 2] : (times[runs / 2 - 1] + times[runs / 2]) / 2;
}

/* The place of the first word `--` from `at` on, or the number of words if there is none. */
static int next_dashes(int at, int count, char **words)
{
    while (at < count && strcmp(words[at], "--"))
        at++;
    return at;
}

int main(int count, char **words)
{
    static struct measured first, second;
    int runs = count > 4 ? atoi(words[1]) : 0;
    int at = next_dashes(4, count, words), end = next_dashes(at + 1, count, words);

    if (at == 4 || end <= at + 1 || (end < count && end != count - 2) || runs < 1 || runs > MOST_RUNS) {
        fprintf(stderr, "usage: interleaved RUNS SCRIPT null|pipe|FILE FIRST.. -- SECOND.. [-- INPUT]\n");
        return 2;
    }
    out = words[3];
    words[at] = NULL;
    words[end] = NULL;
    for (int i = 0; i < runs; i++) {
        run(words + 4, words[2], &first, i);
        run(words + at + 1, end < count ? words[end + 1] : words[2], &second, i);
    }
    printf("%.4f %.4f %.4f %.4f %ld %ld\n", median(first.wall, runs), median(second.wall, runs),
           median(first.processor, runs), median(second.processor, runs), first.resident, second.resident);
    return 0;
}
