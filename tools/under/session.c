#define _GNU_SOURCE
#include "session.h"

#include <errno.h>
#include <fcntl.h>
#include <signal.h>
#include <stdarg.h>
#include <stdio.h>
#include <stdlib.h>
#include <string.h>
#include <sys/prctl.h>
#include <sys/wait.h>
#include <unistd.h>

enum { FIELDS = 5, SEED = 32 };
static const char CLOSING[] = "kread 32\nbits\nend\n"; // the last lines of a record that another record follows

// Events on which later events depend. The last event of each kind is kept, and a new session repeats it.
static char settings[][128] = {"at ", "on ", "hw "};
enum { SETTINGS = sizeof settings / sizeof *settings };
static int is_set[SETTINGS];

static const char *program, *folder, *cpus;
static struct limits limits;
static char fault[512];

static struct {
    unsigned number;
    FILE *script, *transcript;
    pid_t core;
    int to, from;
    unsigned events, bytes;
    size_t text;
    char line[LONGEST];
} now;

int give_up(const char *format, ...) {
    va_list more;
    va_start(more, format);
    if (!*fault)
        (void)vsnprintf(fault, sizeof fault, format, more);
    va_end(more);
    return -1;
}

const char *session_fault(void) { return fault; }
unsigned session_number(void) { return now.number; }

// ---- The core ----------------------------------------------------------------------------------------------------

static __attribute__((noreturn)) void run_core(int from, int to) {
    prctl(PR_SET_PDEATHSIG, SIGKILL, 0, 0, 0);
    if (dup2(from, STDIN_FILENO) >= 0 && dup2(to, STDOUT_FILENO) >= 0)
        execlp(program, program, "live", (char *)NULL);
    _exit(127);
}

static int start_core(void) {
    int in[2], out[2];
    if (pipe2(in, O_CLOEXEC) || pipe2(out, O_CLOEXEC))
        return give_up("no pipe can be made: %s", strerror(errno));
    (void)fcntl(in[1], F_SETPIPE_SZ, 1 << 20); // a read of 1 MiB then takes half the time
    (void)fcntl(out[1], F_SETPIPE_SZ, 1 << 20);
    now.core = fork();
    if (!now.core)
        run_core(in[0], out[1]);
    close(in[0]);
    close(out[1]);
    now.to = in[1];
    now.from = out[0];
    return now.core < 0 ? give_up("%s cannot be started: %s", program, strerror(errno)) : 0;
}

static int core_is_gone(void) {
    int status = 0;
    while (waitpid(now.core, &status, 0) < 0 && errno == EINTR)
        continue;
    if (WIFEXITED(status))
        return give_up("%s live ended with status %d", program, WEXITSTATUS(status));
    return give_up("%s live was ended by signal %d", program, WTERMSIG(status));
}

static int keep(FILE *file, const char *name, const char *text, size_t length) {
    if (fwrite(text, 1, length, file) == length)
        return 0;
    return give_up("%s/%s-%u: %s; TMPDIR can name another folder", folder, name, now.number, strerror(errno));
}

// Writes a text to the core and to the script.
static int send_text(const char *text, size_t length) {
    now.text += length;
    if (keep(now.script, "script", text, length))
        return -1;
    while (length) {
        ssize_t put = write(now.to, text, length);
        if (put < 0 && errno != EINTR)
            return core_is_gone();
        text += put > 0 ? put : 0;
        length -= put > 0 ? (size_t)put : 0;
    }
    return 0;
}

// Takes the next line into `now.line`, without its line feed. The core writes one line, and then waits for the next
// event.
static int receive_line(void) {
    size_t length = 0;
    while (!length || now.line[length - 1] != '\n') {
        if (length == sizeof now.line)
            return give_up("%s live wrote a line that is too long", program);
        ssize_t got = read(now.from, now.line + length, sizeof now.line - length);
        if (got == 0 || (got < 0 && errno != EINTR))
            return core_is_gone();
        length += got > 0 ? (size_t)got : 0;
    }
    if (keep(now.transcript, "transcript", now.line, length))
        return -1;
    now.line[length - 1] = '\0';
    return 0;
}

// ---- Events ------------------------------------------------------------------------------------------------------

// Splits the line into its fields, and compares its number and its word with those of the event.
static int read_line(const char *event, struct line *line) {
    char *rest = now.line, *fields[FIELDS], place[32];
    size_t word = strcspn(event, " \n");
    (void)snprintf(place, sizeof place, "0.%u", now.events);
    for (int at = 0; at < FIELDS; at++)
        fields[at] = strsep(&rest, " ");
    if (!fields[FIELDS - 1] || rest || strcmp(fields[0], place) || strlen(fields[1]) != word ||
        memcmp(fields[1], event, word))
        return give_up("%s live did not answer event %u with its line", program, now.events);
    *line = (struct line){now.events, fields[2], !strncmp(fields[3], "~0", 2), fields[4]};
    return 0;
}

static void keep_setting(const char *event) {
    for (int at = 0; at < SETTINGS; at++)
        if (!memcmp(event, settings[at], 3)) {
            (void)snprintf(settings[at], sizeof *settings, "%s", event);
            is_set[at] = 1;
        }
}

static int make(const char *event, uint32_t bytes, struct line *line) {
    if (send_text(event, strlen(event)) || receive_line() || read_line(event, line))
        return -1;
    now.events++;
    now.bytes += bytes;
    return 0;
}

// Two more events close a record.
static int has_room(size_t length, uint32_t bytes) {
    return now.events + 3 <= limits.events && now.bytes + bytes + SEED <= limits.bytes &&
           now.text + length + sizeof CLOSING <= limits.text;
}

static int begin(unsigned number) {
    static FILE **const files[] = {&now.script, &now.transcript};
    static const char *const names[] = {"script", "transcript"};
    char path[4096], head[64];
    now.number = number;
    now.events = now.bytes = 0;
    now.text = 0;
    for (int at = 0; at < 2; at++) {
        (void)snprintf(path, sizeof path, "%s/%s-%u", folder, names[at], number);
        *files[at] = fopen(path, "we");
        if (!*files[at])
            return give_up("%s: %s", path, strerror(errno));
    }
    int length = snprintf(head, sizeof head, "rngscript 3\ncpus %s\ncaller 0\n", cpus);
    if (start_core() || send_text(head, (size_t)length) || receive_line())
        return -1;
    return strcmp(now.line, "rngtranscript 1") ? give_up("%s live began with another line", program) : 0;
}

// Announces a whole record. Standard input has a byte for each confirmed record. At most one record waits for its byte,
// so that records do not fill the folder.
static int hand_over(void) {
    char one;
    ssize_t got = 1;
    if (printf("cut %u\n", now.number) < 0 || fflush(stdout))
        return give_up("rng-under is gone");
    if (now.number > 1)
        while ((got = read(STDIN_FILENO, &one, 1)) < 0 && errno == EINTR)
            continue;
    return got == 1 ? 0 : give_up("a record was not confirmed");
}

// The next record begins with the settings, and with a seed that has the credit of the old core: 256 bits if the old
// core was ready.
static int cut(void) {
    char seed[2 * SEED + 1], event[2 * SEED + 32];
    const char *bits = "256";
    char credit[16];
    struct line line;
    if (make("kread 32\n", SEED, &line))
        return -1;
    if (snprintf(seed, sizeof seed, "%s", line.data) != 2 * SEED)
        return give_up("%s live left no seed for the next record", program);
    if (line.is_unready) {
        if (make("bits\n", 0, &line))
            return -1;
        (void)snprintf(credit, sizeof credit, "%s", line.data);
        bits = credit;
    }
    if (session_end() || hand_over() || begin(now.number + 1))
        return -1;
    for (int at = 0; at < SETTINGS; at++)
        if (is_set[at] && make(settings[at], 0, &line))
            return -1;
    (void)snprintf(event, sizeof event, "add %s %s\n", seed, bits);
    return make(event, 0, &line);
}

int session_make(const char *event, uint32_t bytes, struct line *line) {
    size_t length = strlen(event);
    if (*fault)
        return -1;
    if (!has_room(length, bytes)) {
        if (cut())
            return -1;
        if (!has_room(length, bytes))
            return give_up("a request needs more room than a record has");
    }
    keep_setting(event);
    return make(event, bytes, line);
}

// ---- Begin and end -----------------------------------------------------------------------------------------------

int session_begin(const char *of_program, const char *of_folder, const char *of_cpus, struct limits of_limits) {
    program = of_program;
    folder = of_folder;
    cpus = of_cpus;
    limits = of_limits;
    return begin(1);
}

static int close_files(void) {
    int failed = fclose(now.script);
    failed |= fclose(now.transcript);
    return failed ? give_up("%s: a record cannot be written: %s; TMPDIR can name another folder", folder, strerror(errno))
                  : 0;
}

int session_end(void) {
    ssize_t got;
    int status = -1;
    if (*fault || send_text("end\n", 4))
        return -1;
    close(now.to);
    while ((got = read(now.from, now.line, sizeof now.line)) > 0 || (got < 0 && errno == EINTR))
        if (got > 0 && keep(now.transcript, "transcript", now.line, (size_t)got))
            return -1;
    close(now.from);
    while (waitpid(now.core, &status, 0) < 0 && errno == EINTR)
        continue;
    return status ? give_up("%s live ended with wait status %d", program, status) : close_files();
}
