/*
 * client_calls PROGRAM|- SCRIPT TRANSCRIPT [SCRIPT TRANSCRIPT]: makes the calls of examples/clients/fenloth.h that standard
 * input asks for, and prints the result of each.
 *
 * An input line is CORE CALL ARGUMENTS. CORE is 0, or 1 for the second pair of files; bytes are in hexadecimal. The
 * answer is a number, with the bytes if the call gives some; or the name of the errno, and for EIO also core->problem.
 */
#include "../examples/clients/fenloth.h"
#include <sys/time.h>

enum { MOST_BYTES = 3 << 20 };

static unsigned char bytes[MOST_BYTES];
static char line[2 * MOST_BYTES + 64], hex[2 * MOST_BYTES + 1];

static void fail(const char *fault)
{
    fprintf(stderr, "client_calls: %s\n", fault);
    exit(2);
}

/* The bytes that the text spells. */
static size_t read_bytes(const char *text)
{
    size_t n = 0;

    for (; *text && *text != ' '; text += 2)
        bytes[n++] = (unsigned char)(fenloth_digit(text[0]) << 4 | fenloth_digit(text[1]));
    return n;
}

static void print_fault(const struct fenloth *core)
{
    printf("%s\n", errno == EAGAIN ? "EAGAIN" : errno == EINTR ? "EINTR" : errno == EINVAL ? "EINVAL"
           : errno == EMSGSIZE ? "EMSGSIZE" : errno == ENODATA ? "ENODATA" : errno == EIO ? core->problem : strerror(errno));
}

/* A call that gives bytes. */
static void print_read(const struct fenloth *core, ssize_t n)
{
    if (n < 0) {
        print_fault(core);
        return;
    }
    for (ssize_t i = 0; i < n; i++) {
        hex[2 * i] = "0123456789abcdef"[bytes[i] >> 4];
        hex[2 * i + 1] = "0123456789abcdef"[bytes[i] & 15];
    }
    printf("%zd %.*s\n", n, (int)(2 * n), hex);
}

static void ignore(int number)
{
    (void)number;
}

/* A write of 1 MiB, and reads of 5,000 bytes, while a signal interrupts system calls again and again. */
static ssize_t read_interrupted(struct fenloth *core, size_t times)
{
    struct itimerval often = {{0, 200}, {0, 200}}, never = {{0, 0}, {0, 0}};
    struct sigaction action;
    size_t n = 0;

    memset(&action, 0, sizeof(action));
    action.sa_handler = ignore;
    if (5000 * times > MOST_BYTES || sigaction(SIGALRM, &action, NULL) || setitimer(ITIMER_REAL, &often, NULL))
        fail("no timer, or too many bytes");
    memset(bytes, 0, 1 << 20);
    if (fenloth_write(core, bytes, 1 << 20) == 1 << 20)
        while (n < 5000 * times && fenloth_getrandom(core, bytes + n, 5000, 0) == 5000)
            n += 5000;
    setitimer(ITIMER_REAL, &never, NULL);
    return n == 5000 * times ? (ssize_t)n : -1;
}

static void make_call(struct fenloth *core, const char *call, const char *rest)
{
    const char *second = strchr(rest, ' ');
    size_t n = (size_t)strtoull(rest, NULL, 10);
    long long result;

    second = second ? second + 1 : "";
    if (!strcmp(call, "getrandom") || !strcmp(call, "urandom")) {
        if (n > MOST_BYTES)
            fail("too many bytes");
        memset(bytes, 0, n);
        print_read(core, *call == 'g' ? fenloth_getrandom(core, bytes, n, (unsigned)strtoul(second, NULL, 10))
                   : fenloth_urandom(core, bytes, n));
        return;
    }
    if (!strcmp(call, "interrupted")) {
        print_read(core, read_interrupted(core, n));
        return;
    }
    result = !strcmp(call, "write") ? fenloth_write(core, bytes, read_bytes(rest))
        : !strcmp(call, "add") ? fenloth_add(core, bytes, read_bytes(rest), atoi(second))
        : !strcmp(call, "credit") ? fenloth_credit(core, atoi(rest))
        : !strcmp(call, "at") ? fenloth_at(core, strtoull(rest, NULL, 10))
        : !strcmp(call, "tick") ? fenloth_tick(core)
        : !strcmp(call, "bits") ? fenloth_bits(core)
        : !strcmp(call, "event") ? fenloth_event(core, rest)
        : !strcmp(call, "kill") ? kill(core->program, SIGKILL)
        : !strcmp(call, "close") ? fenloth_close(core) : -2;
    if (result == -2)
        fail("no such call");
    if (result < 0)
        print_fault(core);
    else
        printf("%lld\n", result);
}

int main(int count, char **words)
{
    struct fenloth cores[2];
    FILE *files[4] = {NULL, NULL, NULL, NULL};
    int number = (count - 2) / 2;

    if (count != 4 && count != 6)
        fail("takes PROGRAM SCRIPT TRANSCRIPT [SCRIPT TRANSCRIPT]");
    for (int i = 2; i < count; i++)
        if (!(files[i - 2] = fopen(words[i], "w")))
            fail(words[i]);
    for (int i = 0; i < number; i++)
        if (fenloth_open(&cores[i], strcmp(words[1], "-") ? words[1] : NULL, 2, files[2 * i], files[2 * i + 1]))
            return printf("%s\n", cores[i].problem), 1;
    while (fgets(line, sizeof(line), stdin)) {
        char *call = line + 2, *rest = call + strcspn(call, " \n");

        line[strcspn(line, "\n")] = 0;
        if (*rest)
            *rest++ = 0;
        make_call(&cores[line[0] - '0'], call, rest);
        fflush(stdout);
    }
    return 0;
}
