/*
 * live_loop PROGRAM SIZE COUNT: how long reads of a live core take, one at a time, by examples/clients/fenloth.h.
 *
 * A session of a program has at most 16 MiB of reads, so SIZE times COUNT has to be below that. It prints the median
 * and the least microseconds of a read.
 */
#include "../examples/clients/fenloth.h"

static void fail(const char *fault)
{
    fprintf(stderr, "live_loop: %s\n", fault);
    exit(1);
}

static double now(void)
{
    struct timespec at;

    clock_gettime(CLOCK_MONOTONIC, &at);
    return (double)at.tv_sec * 1e6 + (double)at.tv_nsec / 1e3;
}

static int order(const void *a, const void *b)
{
    double x = *(const double *)a, y = *(const double *)b;

    return (x > y) - (x < y);
}

int main(int count, char **words)
{
    size_t size = count == 4 ? (size_t)atol(words[2]) : 0, times = count == 4 ? (size_t)atol(words[3]) : 0;
    double *took = (double *)malloc((times + 1) * sizeof(*took));
    unsigned char *bytes = (unsigned char *)malloc(size + 1);
    struct fenloth core;

    if (!times || !size || !took || !bytes)
        fail("takes PROGRAM SIZE COUNT");
    if (fenloth_open(&core, words[1], 1, NULL, NULL) || fenloth_credit(&core, 256) ||
        fenloth_getrandom(&core, bytes, size, 0) < 0)
        fail(core.problem);
    for (size_t i = 0; i < times; i++) {
        double began = now();

        if (fenloth_getrandom(&core, bytes, size, 0) != (ssize_t)size)
            fail(core.problem);
        took[i] = now() - began;
    }
    if (fenloth_close(&core))
        fail(core.problem);
    qsort(took, times, sizeof(*took), order);
    printf("%.1f %.1f\n", took[times / 2], took[0]);
    return 0;
}
