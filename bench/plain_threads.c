/*
 * plain_threads THREADS TURNS: how many milliseconds THREADS threads take for TURNS turns of a loop, the least of 15.
 *
 * The threads share nothing, and take no memory but their stacks, so this is the machine's own speed. bench/threads.sh
 * prints it beside the times of callers in threads.
 */
#include <pthread.h>
#include <stdint.h>
#include <stdio.h>
#include <stdlib.h>
#include <time.h>

enum { TIMES = 15, MOST_THREADS = 64 };

static uint64_t turns;

static void *count(void *unused)
{
    volatile uint64_t number = 1;

    for (uint64_t i = 0; i < turns; i++)
        number = number * 3 + i;
    return unused;
}

static double milliseconds(void)
{
    struct timespec now;

    clock_gettime(CLOCK_MONOTONIC, &now);
    return (double)now.tv_sec * 1e3 + (double)now.tv_nsec / 1e6;
}

static double once(int threads)
{
    pthread_t started[MOST_THREADS];
    double begun = milliseconds();

    for (int i = 1; i < threads; i++)
        if (pthread_create(&started[i], NULL, count, NULL))
            exit(1);
    count(NULL);
    for (int i = 1; i < threads; i++)
        pthread_join(started[i], NULL);
    return milliseconds() - begun;
}

int main(int argc, char **argv)
{
    int threads = argc == 3 ? atoi(argv[1]) : 0;
    double least = 1e9;

    if (threads < 1 || threads > MOST_THREADS)
        return 2;
    turns = strtoull(argv[2], NULL, 10) / (uint64_t)threads;
    for (int i = 0; i < TIMES; i++) {
        double taken = once(threads);

        least = taken < least ? taken : least;
    }
    printf("%.2f\n", least);
    return 0;
}
