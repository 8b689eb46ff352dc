/*
 * plain_machine: how many nanoseconds a page that is new to a process takes, and how many a locked instruction, each
 * the least of 15 rounds.
 *
 * A run of small events does both often, and machines differ in them: bench/compare.sh prints them beside its ratios.
 */
#define _GNU_SOURCE
#include <stdint.h>
#include <stdio.h>
#include <stdlib.h>
#include <sys/mman.h>
#include <time.h>

enum { TIMES = 15, PAGES = 1024, PAGE = 4096, ADDS = 1000000 };

static double nanoseconds(void)
{
    struct timespec now;

    clock_gettime(CLOCK_MONOTONIC, &now);
    return (double)now.tv_sec * 1e9 + (double)now.tv_nsec;
}

static double new_page(void)
{
    volatile char *memory = mmap(NULL, (size_t)PAGES * PAGE, PROT_READ | PROT_WRITE, MAP_PRIVATE | MAP_ANONYMOUS, -1, 0);
    double begun, taken;

    if (memory == MAP_FAILED)
        exit(1);
    begun = nanoseconds();
    for (size_t i = 0; i < PAGES; i++)
        memory[i * PAGE] = 1;
    taken = nanoseconds() - begun;
    munmap((void *)memory, (size_t)PAGES * PAGE);
    return taken / PAGES;
}

static double locked_instruction(void)
{
    static uint64_t number;
    double begun = nanoseconds();

    for (int i = 0; i < ADDS; i++)
        __atomic_fetch_add(&number, 1, __ATOMIC_SEQ_CST);
    return (nanoseconds() - begun) / ADDS;
}

static double least_of(double (*once)(void))
{
    double least = 1e12;

    for (int i = 0; i < TIMES; i++) {
        double taken = once();

        least = taken < least ? taken : least;
    }
    return least;
}

int main(void)
{
    printf("%.0f %.1f\n", least_of(new_page), least_of(locked_instruction));
    return 0;
}
