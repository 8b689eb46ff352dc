/*
 * plain_core <SCRIPT >TRANSCRIPT: the transcript of a script of one caller, in plain C.
 *
 * bench/compare.sh compares `rng run` with it. The text in and out is that of docs/SCRIPT.md and docs/TRANSCRIPT.md.
 * The algorithms are those of the kernel's generic code: BLAKE2s by blocks of 64 bytes (RFC 7693), ChaCha20 one block
 * at a time (RFC 8439), and a key erased before its bytes are given away. No locks, no threads, no checks: it assumes
 * that its input is a script of one caller without `inside` lines.
 *
 * With -DREADS_FIRST it reads all events before it makes the first, as a run does, since a script with a fault gets
 * only a refusal as its answer. With -DLOCKS each visit takes its lane's lock and its stamp by atomic operations, as in
 * a run. It still checks nothing, and keeps no line.
 */
#include <stdint.h>
#include <stdio.h>
#include <stdlib.h>
#include <string.h>
#include <unistd.h>

enum { KEY = 32, BLOCK = 64, BATCH = 96, MOST_CPUS = 256, MOST_STEPS = 20, MOST_BYTES = 1 << 20 };

static uint32_t rotr32(uint32_t word, int by) { return word >> by | word << (32 - by); }
static uint32_t rotl32(uint32_t word, int by) { return word << by | word >> (32 - by); }
static uint64_t rotl64(uint64_t word, int by) { return word << by | word >> (64 - by); }

/* ---- BLAKE2s --------------------------------------------------------------------------------------------------- */

struct blake2s {
    uint32_t h[8];
    uint64_t count;
    uint8_t buffer[BLOCK];
    size_t filled;
};

static const uint32_t iv[8] = {
    0x6a09e667, 0xbb67ae85, 0x3c6ef372, 0xa54ff53a, 0x510e527f, 0x9b05688c, 0x1f83d9ab, 0x5be0cd19,
};

#define G(a, b, c, d, x, y) \
    do { \
        a += b + (x); d = rotr32(d ^ a, 16); c += d; b = rotr32(b ^ c, 12); \
        a += b + (y); d = rotr32(d ^ a, 8); c += d; b = rotr32(b ^ c, 7); \
    } while (0)

#define ROUND(s0, s1, s2, s3, s4, s5, s6, s7, s8, s9, s10, s11, s12, s13, s14, s15) \
    do { \
        G(v[0], v[4], v[8], v[12], m[s0], m[s1]); G(v[1], v[5], v[9], v[13], m[s2], m[s3]); \
        G(v[2], v[6], v[10], v[14], m[s4], m[s5]); G(v[3], v[7], v[11], v[15], m[s6], m[s7]); \
        G(v[0], v[5], v[10], v[15], m[s8], m[s9]); G(v[1], v[6], v[11], v[12], m[s10], m[s11]); \
        G(v[2], v[7], v[8], v[13], m[s12], m[s13]); G(v[3], v[4], v[9], v[14], m[s14], m[s15]); \
    } while (0)

static void compress(struct blake2s *hash, const uint8_t *block, size_t bytes, int is_last)
{
    uint32_t m[16], v[16];

    hash->count += bytes;
    memcpy(m, block, BLOCK);
    memcpy(v, hash->h, sizeof(hash->h));
    memcpy(v + 8, iv, sizeof(iv));
    v[12] ^= (uint32_t)hash->count;
    v[13] ^= (uint32_t)(hash->count >> 32);
    if (is_last)
        v[14] = ~v[14];
    ROUND(0, 1, 2, 3, 4, 5, 6, 7, 8, 9, 10, 11, 12, 13, 14, 15);
    ROUND(14, 10, 4, 8, 9, 15, 13, 6, 1, 12, 0, 2, 11, 7, 5, 3);
    ROUND(11, 8, 12, 0, 5, 2, 15, 13, 10, 14, 3, 6, 7, 1, 9, 4);
    ROUND(7, 9, 3, 1, 13, 12, 11, 14, 2, 6, 5, 10, 4, 0, 15, 8);
    ROUND(9, 0, 5, 7, 2, 4, 10, 15, 14, 1, 11, 12, 6, 8, 3, 13);
    ROUND(2, 12, 6, 10, 0, 11, 8, 3, 4, 13, 7, 5, 15, 14, 1, 9);
    ROUND(12, 5, 1, 15, 14, 13, 4, 10, 0, 7, 6, 3, 9, 2, 8, 11);
    ROUND(13, 11, 7, 14, 12, 1, 3, 9, 5, 0, 15, 4, 8, 6, 2, 10);
    ROUND(6, 15, 14, 9, 11, 3, 0, 8, 12, 2, 13, 7, 1, 4, 10, 5);
    ROUND(10, 2, 8, 4, 7, 6, 1, 5, 15, 11, 9, 14, 3, 12, 13, 0);
    for (int i = 0; i < 8; i++)
        hash->h[i] ^= v[i] ^ v[i + 8];
}

static void hash_init(struct blake2s *hash, const uint8_t *key, size_t bytes)
{
    memset(hash, 0, sizeof(*hash));
    memcpy(hash->h, iv, sizeof(iv));
    hash->h[0] ^= 0x01010000 | (uint32_t)bytes << 8 | KEY;
    if (bytes) {
        memcpy(hash->buffer, key, bytes);
        hash->filled = BLOCK;
    }
}

static void hash_update(struct blake2s *hash, const uint8_t *text, size_t bytes)
{
    size_t room = BLOCK - hash->filled;

    if (bytes > room) {
        memcpy(hash->buffer + hash->filled, text, room);
        compress(hash, hash->buffer, BLOCK, 0);
        hash->filled = 0;
        text += room;
        bytes -= room;
        for (; bytes > BLOCK; text += BLOCK, bytes -= BLOCK)
            compress(hash, text, BLOCK, 0);
    }
    memcpy(hash->buffer + hash->filled, text, bytes);
    hash->filled += bytes;
}

static void hash_final(struct blake2s *hash, uint8_t *out)
{
    memset(hash->buffer + hash->filled, 0, BLOCK - hash->filled);
    compress(hash, hash->buffer, hash->filled, 1);
    memcpy(out, hash->h, KEY);
}

static void keyed_hash(uint8_t *out, const uint8_t *key, const uint8_t *text, size_t bytes)
{
    struct blake2s hash;

    hash_init(&hash, key, KEY);
    hash_update(&hash, text, bytes);
    hash_final(&hash, out);
}

/* ---- ChaCha20 -------------------------------------------------------------------------------------------------- */

#define QUARTER(a, b, c, d) \
    do { \
        a += b; d = rotl32(d ^ a, 16); c += d; b = rotl32(b ^ c, 12); \
        a += b; d = rotl32(d ^ a, 8); c += d; b = rotl32(b ^ c, 7); \
    } while (0)

static void chacha_block(const uint8_t *key, uint64_t number, uint8_t *out)
{
    uint32_t start[16] = {0x61707865, 0x3320646e, 0x79622d32, 0x6b206574}, x[16];

    memcpy(start + 4, key, KEY);
    start[12] = (uint32_t)number;
    start[13] = (uint32_t)(number >> 32);
    memcpy(x, start, sizeof(x));
    for (int i = 0; i < 10; i++) {
        QUARTER(x[0], x[4], x[8], x[12]);
        QUARTER(x[1], x[5], x[9], x[13]);
        QUARTER(x[2], x[6], x[10], x[14]);
        QUARTER(x[3], x[7], x[11], x[15]);
        QUARTER(x[0], x[5], x[10], x[15]);
        QUARTER(x[1], x[6], x[11], x[12]);
        QUARTER(x[2], x[7], x[8], x[13]);
        QUARTER(x[3], x[4], x[9], x[14]);
    }
    for (int i = 0; i < 16; i++)
        x[i] += start[i];
    memcpy(out, x, BLOCK);
}

/* The blocks from a number on. The last one is cut off. */
static void chacha_blocks(const uint8_t *key, uint64_t number, uint8_t *out, size_t bytes)
{
    uint8_t block[BLOCK];

    for (; bytes >= BLOCK; out += BLOCK, bytes -= BLOCK)
        chacha_block(key, number++, out);
    if (bytes) {
        chacha_block(key, number, block);
        memcpy(out, block, bytes);
    }
}

/* crng_fast_key_erasure: the key is replaced, and up to 32 bytes of the block's other half come out. */
static void erase(uint8_t *key, uint8_t *out, size_t bytes)
{
    uint8_t block[BLOCK];

    chacha_block(key, 0, block);
    memcpy(key, block, KEY);
    memcpy(out, block + KEY, bytes);
}

/* _get_random_bytes, or get_random_bytes_user, from a key that is erased. */
static void bytes_of_key(uint8_t *key, uint8_t *out, size_t bytes, int for_user)
{
    uint8_t used[KEY], first[KEY];
    size_t front = bytes < KEY ? bytes : KEY;

    memcpy(used, key, KEY);
    erase(key, first, KEY);
    if (for_user && bytes > KEY) {
        chacha_blocks(first, 1, out, bytes);
        return;
    }
    memcpy(out, first, front);
    chacha_blocks(used, 1, out + front, bytes - front);
}

/* ---- The core -------------------------------------------------------------------------------------------------- */

enum phase { EMPTY, EARLY, READY };

struct step {
    int lane; /* LOOK, POOL, BASE, or the number of a CPU */
    uint64_t place, stamp;
};

enum { LOOK = -3, POOL = -2, BASE = -1 };

struct batch {
    uint8_t bytes[BATCH];
    size_t at;
    uint64_t look;
    int is_filled;
};

struct cpu {
    uint8_t key[KEY];
    uint64_t generation;
    uint64_t pool[4], last;
    uint32_t count;
    struct batch batches[4];
};

/* struct vgetrandom_state */
struct state {
    uint8_t batch[BATCH], key[KEY];
    uint64_t generation;
    size_t at;
};

static struct blake2s pool;
static uint32_t pool_bits;
static uint8_t base_key[KEY], hardware[KEY];
static enum phase base_phase;
static uint64_t base_generation, timer_due, now;
static int has_timer, is_old;
static struct cpu cpus[MOST_CPUS];
static struct state states[16];
static uint32_t cpu_at, state_at;
static uint64_t input_last, input_first, input_second;
static uint8_t input_value;

static struct step steps[MOST_STEPS];
static size_t step_count;
static uint64_t stamp, places[MOST_CPUS + 2];

static uint8_t served[MOST_BYTES];
static size_t served_len;

static uint64_t look(void)
{
    steps[step_count++] = (struct step){LOOK, base_generation, 0};
    return base_generation;
}

#ifdef LOCKS
static uint64_t tickets[MOST_CPUS + 2], served_tickets[MOST_CPUS + 2];

static void visit(int lane)
{
    uint64_t ticket = __atomic_fetch_add(&tickets[lane + 2], 1, __ATOMIC_SEQ_CST);
    uint64_t now;

    while (__atomic_load_n(&served_tickets[lane + 2], __ATOMIC_SEQ_CST) != ticket)
        ;
    now = __atomic_add_fetch(&stamp, 1, __ATOMIC_SEQ_CST);
    steps[step_count++] = (struct step){lane, places[lane + 2]++, now};
    __atomic_store_n(&served_tickets[lane + 2], ticket + 1, __ATOMIC_SEQ_CST);
}
#else
static void visit(int lane)
{
    steps[step_count++] = (struct step){lane, places[lane + 2]++, ++stamp};
}
#endif

/* extract_entropy */
static void extract(uint8_t *root)
{
    uint8_t seed[KEY], next[KEY], block[KEY + 8] = {0};

    hash_final(&pool, seed);
    memcpy(block, hardware, KEY);
    keyed_hash(next, seed, block, sizeof(block));
    block[KEY] = 1;
    keyed_hash(root, seed, block, sizeof(block));
    hash_init(&pool, next, KEY);
    visit(POOL);
}

/* crng_reseed */
static void install(const uint8_t *root, int has_fired)
{
    uint64_t interval = 60000;

    memcpy(base_key, root, KEY);
    base_phase = READY;
    base_generation++;
    if (now / 1000 >= 120)
        is_old = 1;
    if (!is_old) {
        interval = now / 1000 / 2 * 1000;
        if (interval < 1000)
            interval = 1000;
    }
    if (has_fired || !has_timer) {
        has_timer = 1;
        timer_due = now + interval;
    }
    visit(BASE);
}

static void reseed_ready(int has_fired)
{
    uint8_t root[KEY];

    extract(root);
    install(root, has_fired);
}

/* mix_pool_bytes, and _credit_init_bits for events that credit. */
static void mix(const uint8_t *text, size_t bytes, uint32_t bits)
{
    uint32_t before = pool_bits;

    hash_update(&pool, text, bytes);
    pool_bits = bits > 256 - before ? 256 : before + bits;
    visit(POOL);
    if (before < 256 && pool_bits == 256) {
        reseed_ready(0);
    } else if (before < 128 && pool_bits >= 128) {
        if (base_phase == EMPTY) {
            extract(base_key);
            base_phase = EARLY;
        }
        visit(BASE);
    }
}

/* fast_mix */
static void fast_round(uint64_t *s)
{
    s[0] += s[1]; s[1] = rotl64(s[1], 13) ^ s[0]; s[0] = rotl64(s[0], 32);
    s[2] += s[3]; s[3] = rotl64(s[3], 16) ^ s[2];
    s[0] += s[3]; s[3] = rotl64(s[3], 21) ^ s[0];
    s[2] += s[1]; s[1] = rotl64(s[1], 17) ^ s[2]; s[2] = rotl64(s[2], 32);
}

/* add_interrupt_randomness, mix_interrupt_randomness */
static void interrupt(uint64_t first, uint64_t second)
{
    struct cpu *cpu = &cpus[cpu_at];
    uint64_t words[2] = {first, second};
    uint8_t text[16];
    uint32_t bits;

    for (int i = 0; i < 2; i++) {
        cpu->pool[3] ^= words[i];
        fast_round(cpu->pool);
        cpu->pool[0] ^= words[i];
    }
    cpu->count++;
    visit((int)cpu_at);
    if (cpu->count < 1024 && cpu->last + 1000 >= now)
        return;
    memcpy(text, cpu->pool, sizeof(text));
    bits = (cpu->count & 0xffff) / 64;
    bits = bits < 1 ? 1 : bits > 128 ? 128 : bits;
    cpu->count = 0;
    cpu->last = now;
    visit((int)cpu_at);
    mix(text, sizeof(text), bits);
}

static uint64_t magnitude(int64_t number)
{
    return (uint64_t)(number < 0 ? -number : number);
}

/* add_input_randomness, add_timer_randomness */
static void input(uint64_t word, uint32_t kind, uint32_t code, uint32_t value)
{
    uint32_t number = kind << 4 ^ code ^ code >> 4 ^ value, bits = 0;
    uint8_t text[12];

    if (value == input_value) {
        visit(POOL);
        return;
    }
    input_value = (uint8_t)value;
    if (pool_bits < 256) {
        int64_t first = (int64_t)(now - input_last), second = first - (int64_t)input_first;
        int64_t third = second - (int64_t)input_second;
        uint64_t least = magnitude(first);

        input_last = now;
        input_first = (uint64_t)first;
        input_second = (uint64_t)second;
        least = magnitude(second) < least ? magnitude(second) : least;
        least = magnitude(third) < least ? magnitude(third) : least;
        for (least = least >> 1 & 0xffffffff; least; least >>= 1)
            bits++;
        bits = bits > 11 ? 11 : bits;
    }
    memcpy(text, &word, 8);
    memcpy(text + 8, &number, 4);
    mix(text, sizeof(text), bits);
}

static void refill(struct cpu *cpu)
{
    erase(base_key, cpu->key, KEY);
    cpu->generation = base_generation;
    visit(BASE);
}

/* crng_make_state, and the reads that call it */
static void read_after(uint64_t seen, uint8_t *out, size_t bytes, int for_user)
{
    struct cpu *cpu = &cpus[cpu_at];

    if (!seen) {
        if (base_phase == EMPTY)
            extract(base_key);
        bytes_of_key(base_key, out, bytes, for_user);
        visit(BASE);
        return;
    }
    if (cpu->generation != look())
        refill(cpu);
    bytes_of_key(cpu->key, out, bytes, for_user);
    visit((int)cpu_at);
}

static int are_bad(uint32_t flags)
{
    return flags & ~7u || (flags & 6) == 6;
}

/* getrandom: the answer, and the bytes in `out`. */
static const char *system_call(uint8_t *out, size_t *count, size_t bytes, uint32_t flags)
{
    uint64_t seen;

    if (are_bad(flags))
        return "EINVAL";
    seen = look();
    if (!seen && !(flags & 4)) {
        if (flags & 1)
            return "EAGAIN";
        visit(BASE);
        visit(BASE);
        return "EINTR";
    }
    if (bytes) {
        read_after(seen, out, bytes, 1);
        *count = bytes;
    }
    return "ok";
}

static void file_read(size_t bytes, int for_user)
{
    if (!bytes)
        return;
    read_after(look(), served, bytes, for_user);
    served_len = bytes;
}

/* get_random_u8 to get_random_u64 */
static void integer(int width_at)
{
    size_t width = (size_t)1 << width_at;
    struct cpu *cpu = &cpus[cpu_at];
    struct batch *batch = &cpu->batches[width_at];
    uint64_t seen;

    served_len = width;
    if (!look()) {
        read_after(0, served, width, 0);
        return;
    }
    seen = look();
    if (!batch->is_filled || batch->at == BATCH || batch->look != seen) {
        if (cpu->generation != seen)
            refill(cpu);
        bytes_of_key(cpu->key, batch->bytes, BATCH, 0);
        batch->is_filled = 1;
        batch->at = 0;
        batch->look = seen;
    }
    visit((int)cpu_at);
    memcpy(served, batch->bytes + batch->at, width);
    batch->at += width;
}

static void copy(struct state *state, uint8_t *out, size_t bytes)
{
    memcpy(out, state->batch + state->at, bytes);
    memset(state->batch + state->at, 0, bytes);
    state->at += bytes;
}

/* The bytes of a vgetrandom call whose key is current. */
static void take(struct state *state, uint8_t *out, size_t bytes)
{
    size_t left = BATCH - state->at, front = bytes < left ? bytes : left;
    uint64_t number = 0;
    uint8_t fresh[2 * BLOCK];

    copy(state, out, front);
    out += front;
    bytes -= front;
    if (!bytes)
        return;
    for (; bytes >= BLOCK; out += BLOCK, bytes -= BLOCK)
        chacha_block(state->key, number++, out);
    chacha_block(state->key, number, fresh);
    chacha_block(state->key, number + 1, fresh + BLOCK);
    memcpy(state->batch, fresh, BATCH);
    memcpy(state->key, fresh + BATCH, KEY);
    state->at = 0;
    copy(state, out, bytes);
}

/* __cvdso_getrandom_data: nothing else runs, so the first attempt ends the call. */
static const char *vread(size_t bytes, uint32_t flags)
{
    struct state *state = &states[state_at];
    uint64_t seen, published;
    size_t count = 0;

    if (are_bad(flags))
        return system_call(served, &served_len, bytes, flags);
    seen = look();
    if (bytes && seen && state->generation == seen + 1 && bytes <= BATCH - state->at) {
        copy(state, served, bytes);
        served_len = bytes;
        return "ok";
    }
    if (!seen)
        return system_call(served, &served_len, bytes, flags);
    if (!bytes)
        return "ok";
    published = look() + 1;
    if (state->generation != published) {
        state->generation = published;
        system_call(state->key, &count, KEY, 0);
        state->at = BATCH;
    }
    take(state, served, bytes);
    served_len = bytes;
    look();
    return "ok";
}

/* ---- Text ------------------------------------------------------------------------------------------------------ */

static uint8_t out[1 << 16];
static size_t out_len;

static void flush(void)
{
    for (size_t done = 0; done < out_len;) {
        ssize_t count = write(1, out + done, out_len - done);

        if (count < 0)
            exit(4);
        done += (size_t)count;
    }
    out_len = 0;
}

static void make_room(size_t bytes)
{
    if (sizeof(out) - out_len < bytes)
        flush();
}

static void put(const char *text)
{
    size_t bytes = strlen(text);

    memcpy(out + out_len, text, bytes);
    out_len += bytes;
}

static void put_number(uint64_t number)
{
    uint8_t digits[20];
    size_t at = sizeof(digits);

    do {
        digits[--at] = (uint8_t)('0' + number % 10);
        number /= 10;
    } while (number);
    memcpy(out + out_len, digits + at, sizeof(digits) - at);
    out_len += sizeof(digits) - at;
}

static void put_steps(void)
{
    if (!step_count)
        out[out_len++] = '-';
    for (size_t i = 0; i < step_count; i++) {
        const struct step *step = &steps[i];

        if (i)
            out[out_len++] = ',';
        if (step->lane == LOOK) {
            out[out_len++] = '~';
            put_number(step->place);
            continue;
        }
        out[out_len++] = step->lane == POOL ? 'p' : step->lane == BASE ? 'b' : 'c';
        if (step->lane >= 0)
            put_number((uint64_t)step->lane);
        out[out_len++] = ':';
        put_number(step->place);
        out[out_len++] = '@';
        put_number(step->stamp);
    }
}

static void put_hex(const uint8_t *bytes, size_t count)
{
    static const char digits[] = "0123456789abcdef";

    for (size_t i = 0; i < count; i++) {
        make_room(2);
        out[out_len++] = (uint8_t)digits[bytes[i] >> 4];
        out[out_len++] = (uint8_t)digits[bytes[i] & 15];
    }
}

static void put_line(uint64_t event, const char *word, const char *answer, int64_t number)
{
    make_room(2048);
    put("0.");
    put_number(event);
    out[out_len++] = ' ';
    put(word);
    out[out_len++] = ' ';
    put(answer);
    out[out_len++] = ' ';
    put_steps();
    out[out_len++] = ' ';
    if (number >= 0)
        put_number((uint64_t)number);
    else if (served_len)
        put_hex(served, served_len);
    else
        out[out_len++] = '-';
    make_room(1);
    out[out_len++] = '\n';
}

/* The script, and the place up to which it was read. */
static uint8_t *text;
static const uint8_t *at;

static uint64_t read_number(void)
{
    uint64_t number = 0;

    for (at++; *at >= '0' && *at <= '9'; at++)
        number = number * 10 + (uint64_t)(*at - '0');
    return number;
}

#ifdef READS_FIRST
/* The numbers of the event that is being made, if they were kept. */
static const uint64_t *numbers;

static uint64_t field_number(void) { return numbers ? *numbers++ : read_number(); }
#else
static uint64_t field_number(void) { return read_number(); }
#endif

static uint8_t digit(uint8_t byte)
{
    return (uint8_t)(byte <= '9' ? byte - '0' : byte - 'a' + 10);
}

/* The bytes of a field, after `front`. */
static size_t field_bytes(uint8_t *bytes, size_t front)
{
    if (at[1] == '-') {
        at += 2;
        return front;
    }
    for (at++; *at != ' ' && *at != '\n'; at += 2)
        bytes[front++] = (uint8_t)(digit(at[0]) << 4 | digit(at[1]));
    return front;
}

enum word {
    READ, VREAD, KREAD, UREAD, DREAD, WRITE, INT8, INT16, INT32, INT64, IRQ, AT, ON, HW, DEVICE, ADD, CREDIT, BITS,
    INPUT, RESEED, TICK, DROP, PREPARE, ONLINE, VMFORK, STATE, WORDS,
};

static const struct {
    const char *name;
    size_t bytes;
} words[WORDS] = {
    {"read", 4}, {"vread", 5}, {"kread", 5}, {"uread", 5}, {"dread", 5}, {"write", 5}, {"int8", 4}, {"int16", 5},
    {"int32", 5}, {"int64", 5}, {"irq", 3}, {"at", 2}, {"on", 2}, {"hw", 2}, {"device", 6}, {"add", 3},
    {"credit", 6}, {"bits", 4}, {"input", 5}, {"reseed", 6}, {"tick", 4}, {"drop", 4}, {"prepare", 7},
    {"online", 6}, {"vmfork", 6}, {"state", 5},
};

static enum word word_at(void)
{
    const uint8_t *start = at;
    size_t bytes;

    while (*at != ' ' && *at != '\n')
        at++;
    bytes = (size_t)(at - start);
    for (int i = 0; i < WORDS; i++)
        if (words[i].bytes == bytes && !memcmp(words[i].name, start, bytes))
            return (enum word)i;
    exit(5);
}

static uint8_t *sample;

static void add(uint64_t front)
{
    size_t bytes;

    memcpy(sample, &front, 8);
    bytes = field_bytes(sample, 8);
    mix(sample, bytes, 0);
}

static const char *tick(void)
{
    if (has_timer && timer_due <= now) {
        reseed_ready(1);
        return "fired";
    }
    visit(BASE);
    return "idle";
}

static const char *reseed(void)
{
    if (!look())
        return "ENODATA";
    reseed_ready(0);
    return "ok";
}

/* Makes the event at the script's place, and returns its answer; `number` is the number that `bits` shows. */
static const char *event(enum word word, int64_t *number)
{
    size_t bytes;

    switch (word) {
    case READ:
    case DREAD:
        bytes = field_number();
        return system_call(served, &served_len, bytes, (uint32_t)field_number());
    case VREAD:
        bytes = field_number();
        return vread(bytes, (uint32_t)field_number());
    case KREAD:
    case UREAD:
        file_read(field_number(), word == UREAD);
        break;
    case WRITE:
        bytes = field_bytes(sample, 0);
        mix(sample, bytes, 0);
        break;
    case DEVICE:
        add(field_number());
        break;
    case ADD:
        bytes = field_bytes(sample, 0);
        mix(sample, bytes, (uint32_t)field_number());
        break;
    case CREDIT:
        mix(NULL, 0, (uint32_t)field_number());
        break;
    case INT8:
    case INT16:
    case INT32:
    case INT64:
        integer((int)(word - INT8));
        break;
    case IRQ: {
        uint64_t first = field_number();

        interrupt(first, field_number());
        break;
    }
    case INPUT: {
        uint64_t pressed = field_number(), kind = field_number(), code = field_number();

        input(pressed, (uint32_t)kind, (uint32_t)code, (uint32_t)field_number());
        break;
    }
    case AT:
        now = field_number();
        break;
    case ON:
        cpu_at = (uint32_t)field_number();
        break;
    case HW:
        field_bytes(hardware, 0);
        break;
    case STATE:
        state_at = (uint32_t)field_number();
        break;
    case DROP:
        memset(&states[state_at], 0, sizeof(struct state));
        break;
    case BITS:
        *number = pool_bits;
        visit(POOL);
        break;
    case RESEED:
        return reseed();
    case TICK:
        return tick();
    case VMFORK:
        add(field_number());
        if (look())
            reseed_ready(0);
        break;
    case PREPARE: {
        uint32_t cpu = (uint32_t)field_number();

        cpus[cpu].generation = 0;
        memset(cpus[cpu].batches, 0, sizeof(cpus[cpu].batches));
        visit((int)cpu);
        break;
    }
    case ONLINE: {
        uint32_t cpu = (uint32_t)field_number();

        cpus[cpu].count = 0;
        visit((int)cpu);
        break;
    }
    case WORDS:
        exit(5);
    }
    return "ok";
}

static void read_script(void)
{
    size_t room = 1 << 16, bytes = 0;

    text = malloc(room + 1);
    while (text) {
        ssize_t count = read(0, text + bytes, room - bytes);

        if (count < 0)
            exit(3);
        if (!count)
            break;
        bytes += (size_t)count;
        if (bytes == room)
            text = realloc(text, (room *= 2) + 1);
    }
    sample = malloc(bytes + 16);
    if (!text || !sample)
        exit(6);
    text[bytes] = '\n';
    at = text;
}

#ifdef READS_FIRST
/* An event in 24 bytes: the place of its fields in the text, and its numbers if they are at most two and all of its
   fields. The fields of other events are read again. Bytes beside a number may be spelt as one. */
struct event {
    uint64_t numbers[2];
    uint32_t at;
    uint8_t word, has_numbers;
};

static struct event *events;
static size_t event_count;

static void read_event(struct event *event)
{
    event->word = (uint8_t)word_at();
    event->at = (uint32_t)(at - text);
    for (int i = 0; i < 2 && *at == ' '; i++)
        event->numbers[i] = read_number();
    event->has_numbers = *at == '\n' && event->word != ADD && event->word != DEVICE && event->word != VMFORK;
    while (*at != '\n')
        at++;
}

static void read_events(void)
{
    size_t room = 4096;

    events = malloc(room * sizeof(*events));
    for (; memcmp(at, "end\n", 4); at++) {
        if (event_count == room)
            events = realloc(events, (room *= 2) * sizeof(*events));
        if (!events)
            exit(6);
        read_event(&events[event_count++]);
    }
}

static enum word next_event(size_t number)
{
    at = text + events[number].at;
    numbers = events[number].has_numbers ? events[number].numbers : NULL;
    return (enum word)events[number].word;
}
#endif

int main(void)
{
    static const uint64_t fast_start[4] = {
        0x736f6d6570736575, 0x646f72616e646f6d, 0x6c7967656e657261, 0x7465646279746573,
    };
    uint64_t number = 0;

    read_script();
    hash_init(&pool, NULL, 0);
    for (int i = 0; i < MOST_CPUS; i++)
        memcpy(cpus[i].pool, fast_start, sizeof(fast_start));
    for (int i = 0; i < 3; i++)
        at = (const uint8_t *)strchr((const char *)at, '\n') + 1;
    put("rngtranscript 1\n");
#ifdef READS_FIRST
    read_events();
    while (number < event_count) {
        enum word word = next_event(number);
#else
    for (; memcmp(at, "end\n", 4); at++) {
        enum word word = word_at();
#endif
        int64_t bits = -1;
        const char *answer;

        step_count = 0;
        served_len = 0;
        answer = event(word, &bits);
        put_line(number++, words[word].name, answer, bits);
    }
    step_count = 0;
    served_len = 0;
    visit(BASE);
    put_line(number, "end", "ok", -1);
    make_room(4);
    put("end\n");
    flush();
    return 0;
}
