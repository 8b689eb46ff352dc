/* The first program of a machine whose memory is kept. It shows the bytes of vgetrandom's states that are left in user memory.
 *
 * It shows the unserved bytes and the key of each state on the console, byte by byte, so that no other copy of them is
 * in memory. At each `moment` it calls sync(2) and sleeps. One child dumps core, and the core is searched for the
 * child's state. If it is not the first process, it shows one state and waits for a debugger. tools/boot/initrd
 * compiles it, and docs/MEMORY.md describes the result. */
#include "vgetrandom.h"
#include <fcntl.h>
#include <signal.h>
#include <stdlib.h>
#include <sys/random.h>
#include <sys/resource.h>
#include <sys/stat.h>
#include <sys/sysmacros.h>
#include <sys/wait.h>
#include <unistd.h>

enum { BATCH = 96, KEY = 96, KEY_BYTES = 32, POSITION = 136, MUCH = 128 << 20 };

typedef unsigned char byte;

/* The bytes that a child leaves for its parent, each increased by one, so that they are no copy. */
struct raised {
    byte key[KEY_BYTES], copy[KEY_BYTES];
};

static void moment(const char *word)
{
    printf("moment %s\n", word);
    sync();
    sleep(1);
}

static void show(const char *name, const char *part, const byte *at, int count)
{
    printf("value %s.%s ", name, part);
    for (int i = 0; i < count; i++)
        printf("%02x", at[i]);
    printf("\n");
}

/* The bytes that a call leaves in its buffer are zeroed, since they were served. */
static void take(byte *state, size_t count)
{
    byte served[BATCH];
    if (vgetrandom(served, count, 0, state, parameters.size) != (ssize_t)count)
        die("no bytes");
    explicit_bzero(served, sizeof served);
}

static byte *used_state(const char *name)
{
    byte *state = page(), none[KEY_BYTES] = {0};
    take(state, 16);
    if (!memcmp(state + KEY, none, KEY_BYTES))
        die("the state was not used");
    show(name, "rest", state + state[POSITION], BATCH - state[POSITION]);
    show(name, "key", state + KEY, KEY_BYTES);
    return state;
}

static void raise_bytes(byte *to, const byte *from)
{
    for (int i = 0; i < KEY_BYTES; i++)
        to[i] = (byte)(from[i] + 1);
}

static int count_raised(const byte *bytes, size_t size, const byte *wanted)
{
    int found = 0;
    for (size_t at = 0; at + KEY_BYTES <= size; at++) {
        int i = 0;
        while (i < KEY_BYTES && bytes[at + i] == (byte)(wanted[i] - 1))
            i++;
        found += i == KEY_BYTES;
    }
    return found;
}

/* A child with a state, and with 32 bytes in an ordinary page as a control, dumps core. */
static void crash(struct raised *left)
{
    struct rlimit all = {RLIM_INFINITY, RLIM_INFINITY};
    byte *state = used_state("crashed"), *copy = mmap(0, PAGE, PROT_READ | PROT_WRITE, MAP_PRIVATE | MAP_ANONYMOUS, -1, 0);
    take(state, 32);
    vgetrandom(copy, KEY_BYTES, 0, state, parameters.size);
    show("crashed", "copy", copy, KEY_BYTES);
    raise_bytes(left->key, state + KEY);
    raise_bytes(left->copy, copy);
    printf("madvise MADV_DODUMP of the state's page: %s\n", madvise(state, PAGE, MADV_DODUMP) ? strerror(errno) : "done");
    setrlimit(RLIMIT_CORE, &all);
    abort();
}

static void look_into_core(const struct raised *left)
{
    struct stat about;
    int file = open("/core", O_RDONLY);
    if (file < 0 || fstat(file, &about))
        die("no core");
    const byte *core = mmap(0, (size_t)about.st_size, PROT_READ, MAP_PRIVATE, file, 0);
    printf("core: %lld bytes, the key of the state %d times, the copy %d times\n", (long long)about.st_size,
           count_raised(core, (size_t)about.st_size, left->key), count_raised(core, (size_t)about.st_size, left->copy));
    munmap((void *)core, (size_t)about.st_size);
    close(file);
    unlink("/core");
}

static void dump_core(void)
{
    struct raised *left = mmap(0, PAGE, PROT_READ | PROT_WRITE, MAP_SHARED | MAP_ANONYMOUS, -1, 0);
    if (fork() == 0)
        crash(left);
    wait(0);
    look_into_core(left);
}

static void fork_a_state(void)
{
    byte *state = used_state("forked");
    if (fork() == 0) {
        int others = 0;
        for (unsigned i = 0; i < parameters.size; i++)
            others += state[i] != 0;
        printf("in a child the state has %d bytes that are no zeros\n", others);
        _exit(0);
    }
    wait(0);
}

static void exit_with_a_state(void)
{
    if (fork() == 0) {
        used_state("exited");
        _exit(0);
    }
    wait(0);
}

/* Other pages take the place of those that are free. */
static void use_memory(void)
{
    byte *much = mmap(0, MUCH, PROT_READ | PROT_WRITE, MAP_PRIVATE | MAP_ANONYMOUS, -1, 0);
    memset(much, 0x55, MUCH);
    munmap(much, MUCH);
}

static void prepare(void)
{
    setvbuf(stdout, 0, _IONBF, 0);
    vgetrandom = find();
    if (!vgetrandom || vgetrandom(0, 0, 0, &parameters, ~0UL))
        die("no vgetrandom");
    /* A call uses no state before the core is ready. */
    byte first;
    if (getrandom(&first, 1, 0) != 1)
        die("no first byte");
}

int main(void)
{
    if (getpid() != 1) {
        prepare();
        used_state("held");
        pause();
        return 0;
    }
    mkdir("/dev", 0755);
    mknod("/dev/console", S_IFCHR | 0600, makedev(5, 1));
    prepare();
    byte *state = used_state("first");
    moment("used");
    take(state, BATCH);
    show("renewed", "key", state + KEY, KEY_BYTES);
    moment("renewed");
    dump_core();
    moment("crashed");
    munmap(used_state("unmapped"), PAGE);
    moment("unmapped");
    madvise(used_state("dropped"), PAGE, MADV_DONTNEED);
    moment("dropped");
    fork_a_state();
    exit_with_a_state();
    moment("exited");
    use_memory();
    moment("reused");
    reboot(RB_POWER_OFF);
    return 0;
}
