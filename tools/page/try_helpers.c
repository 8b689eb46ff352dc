// Compares helpers.c with the 128-bit arithmetic of a native compiler, on random numbers of all lengths.
#include <stdio.h>
#include <stdlib.h>

#define __multi3 ours_multi3
#define __ashlti3 ours_ashlti3
#define __lshrti3 ours_lshrti3
#define __ashrti3 ours_ashrti3
#define __udivti3 ours_udivti3
#define __umodti3 ours_umodti3
#define __divti3 ours_divti3
#define __modti3 ours_modti3
#define __muloti4 ours_muloti4
#include "helpers.c"

static u128 any_number(void) {
    u128 number = 0;
    for (int part = 0; part < 5; part++)
        number = number << 31 ^ (u128)random();
    long bits = random() % 129;
    number = bits ? number >> (128 - bits) : 0;
    return random() % 2 ? -number : number;
}

static int differs(u128 x, u128 y, int count) {
    i128 product;
    int overflows = __builtin_mul_overflow((i128)x, (i128)y, &product), ours = -1;
    int is_other = ours_multi3(x, y) != x * y || ours_ashlti3(x, count) != x << count || ours_lshrti3(x, count) != x >> count ||
                   ours_ashrti3((i128)x, count) != (i128)x >> count || ours_muloti4((i128)x, (i128)y, &ours) != product ||
                   ours != overflows;
    if (y)
        is_other |= ours_udivti3(x, y) != x / y || ours_umodti3(x, y) != x % y;
    if (y && y != (u128)-1)
        is_other |= ours_divti3((i128)x, (i128)y) != (i128)x / (i128)y || ours_modti3((i128)x, (i128)y) != (i128)x % (i128)y;
    return is_other;
}

int main(void) {
    long wrong = 0;
    srandom(1);
    for (long round = 0; round < 200000; round++)
        wrong += differs(any_number(), any_number(), (int)(random() % 128));
    printf("differ: %ld\n", wrong);
    return wrong != 0;
}
