/* Runs a script of one caller on the kernel's own random core, in user space. The script comes on standard input and
   has no faults. For each event a line is written: its answer, and its bytes in hexadecimal or `-`.

   The sources are included unchanged, so that all their state is at hand. How each event calls the kernel is below,
   in the order of docs/SCRIPT.md. */

#include "stub.h"

#include "lib/crypto/blake2s-generic.c"
#include "lib/crypto/blake2s.c"
#include "lib/crypto/chacha.c"
#include "drivers/char/random.c"
#include "lib/vdso/getrandom.c"

enum { CPUS = 256, STATES = 16, ACTS = 8, LONGEST_READ = 1 << 20, POINTS = 4 };

unsigned long jiffies, cycles, cpu_offset;
struct pt_regs interrupted;
struct vdso_rng_data rng_data;
struct workqueue_struct *const system_unbound_wq = (void *)&jiffies;

static unsigned long offsets[CPUS];
static unsigned long hardware[4];
static struct delayed_work *due_work;
static unsigned long due_at;
static struct timer_list *due_timer;
static struct vgetrandom_state *states[STATES], *state;
static u8 *bytes, *nested_bytes;

/* The lines of the answer. Those of acts become known later. */
static char **answers;
static size_t events;

/* An act that waits for the next vread, or one that this vread is at. */
struct act {
    size_t event;
    int point;
    char word[8];
    size_t count;
};
static struct act acts[ACTS];
static size_t waiting;
static int reached; /* the last point that the first attempt reached; POINTS + 1 after it, and -1 outside a vread */

bool blake2s_selftest(void)
{
    return true;
}

static void fail(const char *why)
{
    fprintf(stderr, "harness: %s\n", why);
    exit(2);
}

/* The machine */

void *part_of_cpu(void *part, unsigned int cpu)
{
    return (char *)part + offsets[cpu];
}

static void make_cpus(void)
{
    extern char __start_cpu_parts[], __stop_cpu_parts[];
    size_t size = __stop_cpu_parts - __start_cpu_parts;
    char *copies = aligned_alloc(64, ((size * CPUS) + 63) / 64 * 64);
    if (!copies)
        fail("no memory");
    for (size_t cpu = 0; cpu < CPUS; cpu++) {
        memcpy(copies + cpu * size, __start_cpu_parts, size);
        offsets[cpu] = copies + cpu * size - __start_cpu_parts;
    }
    cpu_offset = offsets[0];
}

/* With PLANTED one bit of one word is wrong, to show that the comparison finds a fault. */
size_t hardware_words(unsigned long *words, size_t count)
{
    memcpy(words, hardware + (4 - count), count * sizeof(*words));
#ifdef PLANTED
    words[0] ^= 1;
#endif
    return count;
}

bool queue_delayed_work(struct workqueue_struct *queue, struct delayed_work *work, unsigned long delay)
{
    if (due_work)
        return false;
    due_work = work;
    due_at = jiffies + delay;
    return true;
}

void add_timer_on(struct timer_list *timer, int cpu)
{
    due_timer = timer;
}

ssize_t getrandom_syscall(void *buffer, size_t length, unsigned int flags)
{
    return call_getrandom(buffer, length, flags);
}

void __arch_chacha20_blocks_nostack(u8 *to, const u32 *key, u32 *counter, size_t blocks)
{
    u32 words[CHACHA_STATE_WORDS] = {0};
    chacha_init_consts(words);
    memcpy(words + 4, key, CHACHA_KEY_SIZE);
    for (; blocks; blocks--, to += CHACHA_BLOCK_SIZE) {
        words[12] = counter[0];
        words[13] = counter[1];
        chacha20_block(words, to);
        if (!++counter[0])
            counter[1]++;
    }
}

/* Answers */

static const char *answer_of(long status)
{
    switch (status) {
    case -EAGAIN:
        return "EAGAIN";
    case -EINVAL:
        return "EINVAL";
    case -ENODATA:
        return "ENODATA";
    case -ERESTARTSYS:
        return "EINTR";
    default:
        return status < 0 ? "error" : "ok";
    }
}

static void answer_at(size_t event, const char *answer, const u8 *data, size_t count)
{
    static const char digits[] = "0123456789abcdef";
    size_t length = strlen(answer);
    char *line = malloc(length + 2 * count + 3), *to = line + length;
    if (!line)
        fail("no memory");
    memcpy(line, answer, length);
    *to++ = ' ';
    for (size_t place = 0; place < count; place++) {
        *to++ = digits[data[place] >> 4];
        *to++ = digits[data[place] & 15];
    }
    if (!count)
        *to++ = '-';
    *to = 0;
    free(answers[event]);
    answers[event] = line;
}

static void answer_now(const char *answer)
{
    answer_at(events, answer, NULL, 0);
}

static void answer_read_at(size_t event, long status, const u8 *data, size_t count)
{
    if (status >= 0 && (size_t)status != count)
        fail("a short read");
    answer_at(event, answer_of(status), data, status < 0 ? 0 : count);
}

/* Acts inside a vread */

static void act_at(struct act *act)
{
    if (!strcmp(act->word, "wipe")) {
        memset(state, 0, sizeof(*state));
        answer_at(act->event, "ok", NULL, 0);
    } else if (!strcmp(act->word, "reseed")) {
        answer_at(act->event, answer_of(random_ioctl(NULL, RNDRESEEDCRNG, 0)), NULL, 0);
    } else {
        long status = __cvdso_getrandom_data(&rng_data, nested_bytes, act->count, 0, state, sizeof(*state));
        answer_read_at(act->event, status, nested_bytes, act->count);
    }
}

static void reach(int point)
{
    int from = reached;
    if (from < 0 || from >= point)
        return;
    reached = POINTS + 1; /* nothing happens within an act */
    for (size_t place = 0; place < waiting; place++)
        if (acts[place].point == point)
            act_at(&acts[place]);
    reached = point == POINTS ? POINTS + 1 : point;
}

/* The places at which the vDSO's code is caught, by its read or write there. */
void passed(const char *place)
{
    if (!strcmp(place, "rng_info->generation"))
        reach(1);
    else if (!strcmp(place, "read barrier"))
        reach(2);
    else if (!strcmp(place, "sizeof(state->batch) - state->pos"))
        reach(3);
    else if (!strcmp(place, "barrier"))
        reach(4);
}

/* Events */

static unsigned long number(char **rest)
{
    char *end;
    unsigned long value = strtoull(*rest, &end, 10);
    if (end == *rest)
        fail("no number");
    *rest = end + (*end == ' ');
    return value;
}

static size_t hex(char **rest)
{
    size_t count = 0;
    char *from = *rest;
    for (; *from && *from != ' '; from += 2) {
        if (*from == '-')
            break;
        unsigned int value;
        if (sscanf(from, "%2x", &value) != 1)
            fail("no bytes");
        bytes[count++] = value;
    }
    while (*from && *from != ' ')
        from++;
    *rest = from + (*from == ' ');
    return count;
}

static void do_setting(const char *word, char *rest)
{
    if (!strcmp(word, "at")) {
        jiffies = number(&rest);
    } else if (!strcmp(word, "on")) {
        cpu_offset = offsets[number(&rest)];
    } else if (!strcmp(word, "hw")) {
        hex(&rest);
        memcpy(hardware, bytes, sizeof(hardware));
    } else if (!strcmp(word, "state")) {
        state = states[number(&rest)];
    } else {
        memset(state, 0, sizeof(*state));
    }
    answer_now("ok");
}

static void do_write(char *rest)
{
    size_t count = hex(&rest);
    struct iov_iter iter = {bytes, count};
    if (random_write_iter(NULL, &iter) != (ssize_t)count)
        fail("a short write");
    answer_now("ok");
}

static void do_add(char *rest)
{
    static char given[1 << 24];
    size_t count = hex(&rest);
    int header[2] = {number(&rest), count};
    memcpy(given, header, sizeof(header));
    memcpy(given + sizeof(header), bytes, count);
    answer_now(answer_of(random_ioctl(NULL, RNDADDENTROPY, (unsigned long)given)));
}

static void do_device(const char *word, char *rest)
{
    cycles = number(&rest);
    size_t count = hex(&rest);
    if (!strcmp(word, "device"))
        add_device_randomness(bytes, count);
    else
        add_vmfork_randomness(bytes, count);
    answer_now("ok");
}

static void do_bits(void)
{
    int bits;
    random_ioctl(NULL, RNDGETENTCNT, (unsigned long)&bits);
    char line[32];
    snprintf(line, sizeof(line), "ok %d", bits);
    free(answers[events]);
    answers[events] = strdup(line);
}

static void do_credit(char *rest)
{
    int bits = number(&rest);
    answer_now(answer_of(random_ioctl(NULL, RNDADDTOENTCNT, (unsigned long)&bits)));
}

static void do_irq(char *rest)
{
    cycles = number(&rest);
    interrupted.ip = number(&rest);
    add_interrupt_randomness(0);
    if (due_timer) {
        struct timer_list *timer = due_timer;
        due_timer = NULL;
        timer->function(timer);
    }
    answer_now("ok");
}

static void do_input(char *rest)
{
    cycles = number(&rest);
    unsigned int type = number(&rest), code = number(&rest), value = number(&rest);
    add_input_randomness(type, code, value);
    answer_now("ok");
}

static void do_file_read(const char *word, char *rest)
{
    size_t count = number(&rest);
    struct iov_iter iter = {bytes, count};
    struct file file = {0};
    struct kiocb kiocb = {0, &file};
    if (!strcmp(word, "dread")) {
        file.f_flags = number(&rest) ? O_NONBLOCK : 0;
        answer_read_at(events, random_read_iter(&kiocb, &iter), bytes, count);
    } else {
        answer_read_at(events, urandom_read_iter(&kiocb, &iter), bytes, count);
    }
}

static void do_read(char *rest)
{
    size_t count = number(&rest);
    answer_read_at(events, call_getrandom((char *)bytes, count, number(&rest)), bytes, count);
}

static void do_vread(char *rest)
{
    size_t count = number(&rest);
    unsigned int flags = number(&rest);
    reached = 0;
    long status = __cvdso_getrandom_data(&rng_data, bytes, count, flags, state, sizeof(*state));
    reached = -1;
    waiting = 0;
    answer_read_at(events, status, bytes, count);
}

static void do_inside(char *rest)
{
    struct act *act = &acts[waiting++];
    act->event = events;
    act->point = number(&rest);
    sscanf(rest, "%7s %zu", act->word, &act->count);
    answer_now("unused");
}

static void do_integer(const char *word)
{
    u64 value = !strcmp(word, "int8")    ? get_random_u8()
                : !strcmp(word, "int16") ? get_random_u16()
                : !strcmp(word, "int32") ? get_random_u32()
                                         : get_random_u64();
    answer_at(events, "ok", (u8 *)&value, atoi(word + 3) / 8);
}

static void do_tick(void)
{
    struct delayed_work *work = due_work;
    if (!work || jiffies < due_at) {
        answer_now("idle");
        return;
    }
    due_work = NULL;
    work->work.func(&work->work);
    answer_now("fired");
}

static void do_event(const char *word, char *rest)
{
    if (!strcmp(word, "write"))
        do_write(rest);
    else if (!strcmp(word, "add"))
        do_add(rest);
    else if (!strcmp(word, "device") || !strcmp(word, "vmfork"))
        do_device(word, rest);
    else if (!strcmp(word, "bits"))
        do_bits();
    else if (!strcmp(word, "credit"))
        do_credit(rest);
    else if (!strcmp(word, "irq"))
        do_irq(rest);
    else if (!strcmp(word, "input"))
        do_input(rest);
    else if (!strcmp(word, "read"))
        do_read(rest);
    else if (!strcmp(word, "vread"))
        do_vread(rest);
    else if (!strcmp(word, "inside"))
        do_inside(rest);
    else if (!strcmp(word, "dread") || !strcmp(word, "uread"))
        do_file_read(word, rest);
    else if (!strncmp(word, "int", 3))
        do_integer(word);
    else if (!strcmp(word, "tick"))
        do_tick();
    else if (!strcmp(word, "reseed"))
        answer_now(answer_of(random_ioctl(NULL, RNDRESEEDCRNG, 0)));
    else if (!strcmp(word, "kread")) {
        size_t count = number(&rest);
        get_random_bytes(bytes, count);
        answer_read_at(events, count, bytes, count);
    } else if (!strcmp(word, "prepare") || !strcmp(word, "online")) {
        unsigned int cpu = number(&rest);
        word[0] == 'p' ? random_prepare_cpu(cpu) : random_online_cpu(cpu);
        answer_now("ok");
    } else {
        do_setting(word, rest);
    }
}

static void make_rooms(void)
{
    make_cpus();
    answers = calloc(65536, sizeof(*answers));
    bytes = malloc(1 << 23);
    nested_bytes = malloc(LONGEST_READ);
    if (!answers || !bytes || !nested_bytes)
        fail("no memory");
    for (size_t place = 0; place < STATES; place++)
        states[place] = memset(aligned_alloc(256, 256), 0, 256);
    state = states[0];
    reached = -1;
}

int main(void)
{
    char *line = NULL;
    size_t room = 0;
    ssize_t length;
    make_rooms();
    for (size_t count = 0; (length = getline(&line, &room, stdin)) > 0; count++) {
        line[length - 1] = 0;
        if (count < 3)
            continue; /* the head, the number of CPUs, and the one caller */
        if (!strcmp(line, "end"))
            break;
        char *space = strchr(line, ' ');
        if (space)
            *space = 0;
        do_event(line, space ? space + 1 : line + strlen(line));
        events++;
    }
    for (size_t event = 0; event < events; event++)
        puts(answers[event]);
    return 0;
}
