// The functions that LLVM calls for 128-bit numbers if a target has no instruction for them, and no library with them
// is linked. None of these may multiply, divide or shift 128 bits by a variable: that would call the function itself.
typedef unsigned long long u64;
typedef unsigned __int128 u128;
typedef __int128 i128;

static u64 low(u128 x) {
    return (u64)x;
}

static u64 high(u128 x) {
    return (u64)(x >> 64);
}

static u128 of_halves(u64 upper, u64 lower) {
    return (u128)upper << 64 | lower;
}

// All 128 bits of the product of two 64-bit numbers, by their halves.
static u128 wide_product(u64 x, u64 y) {
    u64 x0 = x & 0xffffffff, x1 = x >> 32, y0 = y & 0xffffffff, y1 = y >> 32;
    u64 lowest = x0 * y0;
    u64 first = x1 * y0 + (lowest >> 32);
    u64 second = x0 * y1 + (first & 0xffffffff);
    return of_halves(x1 * y1 + (first >> 32) + (second >> 32), second << 32 | (lowest & 0xffffffff));
}

u128 __multi3(u128 x, u128 y) {
    u128 product = wide_product(low(x), low(y));
    return of_halves(high(product) + low(x) * high(y) + high(x) * low(y), low(product));
}

u128 __ashlti3(u128 x, int count) {
    if (count == 0)
        return x;
    if (count >= 64)
        return of_halves(low(x) << (count - 64), 0);
    return of_halves(high(x) << count | low(x) >> (64 - count), low(x) << count);
}

u128 __lshrti3(u128 x, int count) {
    if (count == 0)
        return x;
    if (count >= 64)
        return of_halves(0, high(x) >> (count - 64));
    return of_halves(high(x) >> count, low(x) >> count | high(x) << (64 - count));
}

i128 __ashrti3(i128 x, int count) {
    long long upper = (long long)high((u128)x);
    if (count == 0)
        return x;
    if (count >= 64)
        return (i128)of_halves((u64)(upper >> 63), (u64)(upper >> (count - 64)));
    return (i128)of_halves((u64)(upper >> count), low((u128)x) >> count | (u64)upper << (64 - count));
}

// Long division, bit by bit.
static u128 divided(u128 x, u128 y, u128 *rest) {
    u128 quotient = 0, left = 0;
    for (int bit = 127; bit >= 0; bit--) {
        u64 next = bit >= 64 ? high(x) >> (bit - 64) & 1 : low(x) >> bit & 1;
        left = of_halves(high(left) << 1 | low(left) >> 63, low(left) << 1 | next);
        quotient = of_halves(high(quotient) << 1 | low(quotient) >> 63, low(quotient) << 1);
        if (left >= y) {
            left -= y;
            quotient |= 1;
        }
    }
    *rest = left;
    return quotient;
}

u128 __udivti3(u128 x, u128 y) {
    u128 rest;
    return divided(x, y, &rest);
}

u128 __umodti3(u128 x, u128 y) {
    u128 rest;
    divided(x, y, &rest);
    return rest;
}

static u128 size_of(i128 x) {
    return x < 0 ? -(u128)x : (u128)x;
}

i128 __divti3(i128 x, i128 y) {
    u128 quotient = __udivti3(size_of(x), size_of(y));
    return (x < 0) != (y < 0) ? -(i128)quotient : (i128)quotient;
}

i128 __modti3(i128 x, i128 y) {
    u128 rest = __umodti3(size_of(x), size_of(y));
    return x < 0 ? -(i128)rest : (i128)rest;
}

// The product, and whether it does not fit into 128 bits with a sign.
i128 __muloti4(i128 x, i128 y, int *overflows) {
    u128 most = (~(u128)0 >> 1) + ((x < 0) != (y < 0));
    *overflows = y != 0 && size_of(x) > __udivti3(most, size_of(y));
    return (i128)__multi3((u128)x, (u128)y);
}
