// The functions of the C library that the programs `rng` and `key_audit` call, for a WebAssembly module with a 64-bit
// memory.
//
// The page is the host: it gives standard input, takes standard output and standard error, and sets the words of the
// command line before it calls `page_main`. There is one thread, and starting another fails with EAGAIN. If a caller's
// thread cannot be started, the caller runs in its parent's thread, as docs/SCRIPT.md describes.
typedef unsigned char u8;
typedef unsigned long long u64;
typedef long long i64;
typedef int i32;

#define IMPORT(name) __attribute__((import_module("host"), import_name(#name)))
#define EXPORT(name) __attribute__((export_name(#name), visibility("default")))
#define SILENT __attribute__((unused))

IMPORT(read) extern i64 host_read(u64 at, u64 length);
IMPORT(write) extern i64 host_write(i32 stream, u64 at, u64 length);
IMPORT(exit) extern _Noreturn void host_exit(i32 status);

static u64 place_of(const void *pointer) {
    return (u64)pointer;
}

// The heap. A block's size is a multiple of 16 up to 64; above that it is one of four steps between two powers of two,
// so that there are few classes of sizes. A freed block goes to the list of its class. The 16 bytes before a block have
// its class and its size.
enum { HEADER = 16, CLASSES = 256, PAGE_BITS = 16, PAGES_AT_ONCE = 64 };
static const u64 LARGEST = 1ull << 40;

typedef struct {
    u64 class, size;
} Header;

extern u8 __heap_base;
static u64 top, end;
static u8 *freed[CLASSES];

static Header *header_of(u8 *block) {
    return (Header *)(block - HEADER);
}

static Header header_for(u64 length) {
    if (length <= 64) {
        u64 sixteens = length ? (length + 15) / 16 : 1;
        return (Header){sixteens - 1, sixteens * 16};
    }
    u64 step = 1ull << (61 - __builtin_clzll(length - 1));
    u64 size = (length + step - 1) & ~(step - 1);
    u64 bit = 63 - (u64)__builtin_clzll(size);
    return (Header){4 + (bit - 6) * 4 + (size >> (bit - 2) & 3), size};
}

static int grow(u64 pages) {
    if (__builtin_wasm_memory_grow(0, pages) == (unsigned long)-1)
        return 0;
    end += pages << PAGE_BITS;
    return 1;
}

// Room for so many bytes more at the top of the heap.
static int has_room(u64 length) {
    if (!top) {
        top = (place_of(&__heap_base) + 15) & ~15ull;
        end = (u64)__builtin_wasm_memory_size(0) << PAGE_BITS;
    }
    if (end - top >= length)
        return 1;
    u64 pages = (length - (end - top) + (1 << PAGE_BITS) - 1) >> PAGE_BITS;
    return (pages < PAGES_AT_ONCE && grow(PAGES_AT_ONCE)) || grow(pages);
}

void *malloc(u64 length) {
    if (length > LARGEST)
        return 0;
    Header header = header_for(length);
    u8 *block = freed[header.class];
    if (block) {
        freed[header.class] = *(u8 **)block;
        return block;
    }
    if (!has_room(header.size + HEADER))
        return 0;
    block = (u8 *)(top + HEADER);
    *header_of(block) = header;
    top += header.size + HEADER;
    return block;
}

void free(void *pointer) {
    if (!pointer)
        return;
    u8 *block = pointer;
    u64 class = header_of(block)->class;
    *(u8 **)block = freed[class];
    freed[class] = block;
}

// The programs' allocator calls this. It returns whether there was memory, and its place. A block of no bytes has a
// place too.
typedef struct {
    u64 is_there;
    u64 at;
} Tried;

static u8 nowhere[16] __attribute__((aligned(16)));

Tried rattle_alloc(u64 length, u64 alignment) {
    u8 *block = malloc(length ? length : alignment);
    return (Tried){block != 0, place_of(block ? block : nowhere)};
}

Tried rattle_realloc(u8 *block, u64 kept, u64 length, u64 alignment) {
    u64 wanted = length ? length : alignment, size = header_of(block)->size;
    if (wanted <= size && wanted * 2 >= size)
        return (Tried){1, place_of(block)};
    u8 *moved = malloc(wanted);
    if (!moved)
        return (Tried){0, place_of(nowhere)};
    u64 count = kept < wanted ? kept : wanted;
    __builtin_memcpy(moved, block, count < size ? count : size);
    free(block);
    return (Tried){1, place_of(moved)};
}

void rattle_dealloc(u8 *block) {
    free(block);
}

// The words of the command line: at most 16 of at most 63 bytes, set by the page byte for byte.
enum { WORDS = 16, WORD_BYTES = 64 };
static u8 words[WORDS][WORD_BYTES];
static u64 word_count;

EXPORT(page_word) void page_word(u64 word, u64 at, u64 byte) {
    if (word >= WORDS || at >= WORD_BYTES - 1)
        __builtin_trap();
    words[word][at] = (u8)byte;
    words[word][at + 1] = 0;
    if (word_count <= word)
        word_count = word + 1;
}

u64 rattle_arg_count(void) {
    return word_count;
}

// The bytes of a word, without the 0 after it. Returns -1 if there is no such word, and -2 if it does not fit.
i64 rattle_arg(u64 word, u8 *to, u64 length) {
    if (word >= word_count)
        return -1;
    u64 count = 0;
    for (; words[word][count]; count++) {
        if (count == length)
            return -2;
        to[count] = words[word][count];
    }
    return count == length && count ? -2 : (i64)count;
}

// The environment is empty.
i64 rattle_env(SILENT const u8 *name, SILENT u8 *to, SILENT u64 length) {
    return -1;
}

i64 rattle_env_at(SILENT u64 number, SILENT u8 *to, SILENT u64 length) {
    return -1;
}

static i32 last_error;

i32 rattle_errno(void) {
    return last_error;
}

void rattle_set_errno(i32 error) {
    last_error = error;
}

i32 __xpg_strerror_r(SILENT i32 error, u8 *to, u64 length) {
    if (length)
        to[0] = 0;
    return 0;
}

i64 read(SILENT i32 stream, u8 *to, u64 length) {
    return host_read(place_of(to), length);
}

i64 write(i32 stream, const u8 *from, u64 length) {
    return host_write(stream, place_of(from), length);
}

i64 __write(i32 stream, const u8 *from, u64 length) {
    return host_write(stream, place_of(from), length);
}

_Noreturn void _exit(i32 status) {
    host_exit(status);
}

_Noreturn void abort(void) {
    __builtin_trap();
}

i64 __sysv_signal(SILENT i32 signal, SILENT i64 handler) {
    return 0;
}

// Threads. None starts, so nothing waits for one to end.
enum { EAGAIN = 11 };

i32 pthread_attr_init(SILENT void *attributes) {
    return 0;
}

i32 pthread_attr_destroy(SILENT void *attributes) {
    return 0;
}

i32 pthread_attr_setguardsize(SILENT void *attributes, SILENT u64 size) {
    return 0;
}

i32 pthread_attr_setstacksize(SILENT void *attributes, SILENT u64 size) {
    return 0;
}

i32 pthread_create(SILENT void *thread, SILENT void *attributes, SILENT void *entry, SILENT void *argument) {
    return EAGAIN;
}

i32 pthread_detach(SILENT u64 thread) {
    __builtin_trap();
}

i32 pthread_join(SILENT u64 thread, SILENT void *answer) {
    __builtin_trap();
}

u64 pthread_self(void) {
    return 1;
}

// The only thread would wait for another one, for ever.
i32 sched_yield(void) {
    __builtin_trap();
}

// futex(2), the one system call. If the word has changed, a wait returns at once, as the kernel's does. Any other wait
// would never end. A wake finds no waiter.
enum { FUTEX_COMMAND = 127, FUTEX_WAIT = 0 };

i64 syscall(SILENT i64 number, void *word, i64 operation, i64 seen, SILENT void *time, ...) {
    if ((operation & FUTEX_COMMAND) != FUTEX_WAIT)
        return 0;
    if (*(volatile i32 *)word == (i32)seen)
        __builtin_trap();
    last_error = EAGAIN;
    return -1;
}

int memcmp(const void *one, const void *other, u64 length) {
    const u8 *x = one, *y = other;
    for (u64 at = 0; at < length; at++)
        if (x[at] != y[at])
            return x[at] < y[at] ? -1 : 1;
    return 0;
}

// Which features the processor has: all of them. The code asks when it starts, and uses none, since it is for no x86
// any more.
void *__x86_get_cpuid_feature_leaf(SILENT i32 leaf) {
    static u8 all[64];
    __builtin_memset(all, 255, sizeof all);
    return all;
}

extern i32 program_main(void);

EXPORT(page_main) i32 page_main(void) {
    return program_main();
}
