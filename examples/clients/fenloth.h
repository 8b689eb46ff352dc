/*
 * fenloth.h: a live core of Linux's random number generator, for tests in C. It is the program `rng live`, by two pipes.
 *
 * The program is the one that is passed to fenloth_open, or else the environment's RNG, or else rng on the PATH. A call
 * returns the result of the kernel's call: -1 and errno if it fails. If the program dies, refuses a line or answers out
 * of order, this call and all later ones return -1 with EIO, and core->problem has the reason. Only the process that
 * opened a core may use it, one thread at a time. With -std=c99 define _POSIX_C_SOURCE as 200809L first.
 */
#ifndef FENLOTH_H
#define FENLOTH_H

#include <errno.h>
#include <fcntl.h>
#include <signal.h>
#include <spawn.h>
#include <stdio.h>
#include <stdlib.h>
#include <string.h>
#include <sys/wait.h>
#include <time.h>
#include <unistd.h>

extern char **environ;

#define FENLOTH_MOST ((size_t)1 << 20)         /* bytes of one event; a longer read is cut into several */
#define FENLOTH_ROOM (2 * FENLOTH_MOST + 4096) /* bytes of one line */

struct fenloth {
    pid_t program;                             /* 0 if none is running */
    int to, from;                              /* the pipes */
    unsigned long events;                      /* the number of events that were sent */
    FILE *script, *transcript;                 /* the record, or NULL */
    char *text, *line, *answer, *data;         /* the last event, its line of the transcript, and two fields of it */
    char problem[256];
};

/* Ends the program, which gets a second to end by itself. Returns 0 if there is no problem and its status is 0. */
static inline int fenloth_stop(struct fenloth *core, const char *cause)
{
    struct timespec moment = {0, 1000000};
    int status = 0;

    if (core->program > 0) {
        close(core->to);
        close(core->from);
        for (int moments = 0; !waitpid(core->program, &status, WNOHANG); moments++) {
            if (moments == 1000)
                kill(core->program, SIGKILL);
            nanosleep(&moment, NULL);
        }
        core->program = 0;
        if (!cause && !status)
            return 0;
        snprintf(core->problem, sizeof(core->problem), "rng live %.150s; it ended by %s %d",
                 cause ? cause : "wrote its last line", WIFSIGNALED(status) ? "signal" : "status",
                 WIFSIGNALED(status) ? WTERMSIG(status) : WEXITSTATUS(status));
    } else if (!core->problem[0])
        strcpy(core->problem, "the core is closed");
    errno = EIO;
    return -1;
}

/* Sends the text, without SIGPIPE: a program that is gone gives no answer. The answer ends with the text `end`. */
static inline int fenloth_ask(struct fenloth *core, size_t length, const char *end)
{
    struct timespec no_time = {0, 0};
    size_t at = 0, tail = strlen(end);
    ssize_t moved = 0;
    sigset_t gone, before;

    sigemptyset(&gone);
    sigaddset(&gone, SIGPIPE);
    pthread_sigmask(SIG_BLOCK, &gone, &before);
    while (at < length && ((moved = write(core->to, core->text + at, length - at)) >= 0 || errno == EINTR))
        at += moved > 0 ? (size_t)moved : 0;
    if (at < length)
        sigtimedwait(&gone, NULL, &no_time);
    pthread_sigmask(SIG_SETMASK, &before, NULL);
    at = 0;
    do {
        moved = read(core->from, core->line + at, FENLOTH_ROOM - 1 - at);
        at += moved > 0 ? (size_t)moved : 0;
    } while (moved < 0 ? errno == EINTR : moved && (at < tail || memcmp(core->line + at - tail, end, tail)));
    core->line[at] = 0;
    if (!strncmp(core->line, "refused ", 8)) {
        core->line[strcspn(core->line, "\n")] = 0;
        return fenloth_stop(core, core->line);
    }
    if (moved <= 0)
        return fenloth_stop(core, at ? "broke off within an answer" : "gave no answer");
    if ((core->script && fwrite(core->text, 1, length, core->script) < length) ||
        (core->transcript && fwrite(core->line, 1, at, core->transcript) < at))
        return fenloth_stop(core, "has a record that cannot be written");
    core->line[at - 1] = 0;
    return 0;
}

/* Starts the program on two pipes. Returns 0, or an errno. */
static inline int fenloth_start(struct fenloth *core, const char *path)
{
    char *words[] = {(char *)path, (char *)"live", NULL};
    int ends[4] = {-1, -1, -1, -1}, fault;
    posix_spawn_file_actions_t moves;

    fault = pipe(ends) || pipe(ends + 2) ? errno : posix_spawn_file_actions_init(&moves);
    if (!fault) {
        for (int i = 0; i < 4; i++)
            fcntl(ends[i], F_SETFD, FD_CLOEXEC);
        posix_spawn_file_actions_adddup2(&moves, ends[0], 0);
        posix_spawn_file_actions_adddup2(&moves, ends[3], 1);
        fault = posix_spawnp(&core->program, path, &moves, NULL, words, environ);
        posix_spawn_file_actions_destroy(&moves);
    }
    for (int i = 0; i < 4; i++)
        if (ends[i] >= 0 && (fault || i == 0 || i == 3))
            close(ends[i]);
    core->to = ends[1];
    core->from = ends[2];
    return fault;
}

/*
 * Opens a core that got no bytes yet. If the two files are not NULL, the record goes to them. If it fails, there is
 * nothing to close.
 */
static inline int fenloth_open(struct fenloth *core, const char *program, unsigned cpus, FILE *script, FILE *transcript)
{
    const char *path = program ? program : getenv("RNG") ? getenv("RNG") : "rng";
    int fault;

    memset(core, 0, sizeof(*core));
    core->script = script;
    core->transcript = transcript;
    core->text = (char *)malloc(2 * FENLOTH_ROOM);
    fault = core->text ? fenloth_start(core, path) : ENOMEM;
    if (fault)
        snprintf(core->problem, sizeof(core->problem), "%.180s: %.60s", path, strerror(fault));
    else {
        core->line = core->text + FENLOTH_ROOM;
        if (!fenloth_ask(core, (size_t)sprintf(core->text, "rngscript 3\ncpus %u\ncaller 0\n", cpus), "\n")) {
            if (!strcmp(core->line, "rngtranscript 1"))
                return 0;
            fenloth_stop(core, "began no transcript");
        }
        fault = EIO;
    }
    free(core->text);
    core->text = NULL;
    core->program = 0;
    errno = fault;
    return -1;
}

/* Makes any event of docs/SCRIPT.md. Then core->answer and core->data are the answer and the data of its line. */
static inline int fenloth_event(struct fenloth *core, const char *event)
{
    static const struct { const char *name; int fault; } answers[] = {
        {"ok", 0}, {"EAGAIN", EAGAIN}, {"EINTR", EINTR}, {"EINVAL", EINVAL}, {"ENODATA", ENODATA}, {"fired", 0}, {"idle", 0}};
    size_t length = strlen(event), word = strcspn(event, " "), kind = 0;
    char number[32], *steps;

    if (core->program <= 0)
        return fenloth_stop(core, NULL);
    if (length > FENLOTH_ROOM - 2 || strchr(event, '\n')) {
        errno = EMSGSIZE;
        return -1;
    }
    memmove(core->text, event, length);
    core->text[length] = '\n';
    if (fenloth_ask(core, length + 1, "\n"))
        return -1;
    core->answer = core->line + sprintf(number, "0.%lu ", core->events++);
    if (strncmp(core->line, number, strlen(number)) || strncmp(core->answer, core->text, word) || core->answer[word] != ' ')
        return fenloth_stop(core, "gave the line of another event");
    core->answer += word + 1;
    steps = strchr(core->answer, ' ');
    core->data = steps ? strchr(steps + 1, ' ') : NULL;
    if (!core->data || strchr(++core->data, ' ') || strchr(core->data, '\n'))
        return fenloth_stop(core, "gave a line without its five fields");
    *steps = 0;
    while (kind < sizeof(answers) / sizeof(*answers) && strcmp(core->answer, answers[kind].name))
        kind++;
    if (kind == sizeof(answers) / sizeof(*answers))
        return fenloth_stop(core, "gave an unknown answer");
    if (answers[kind].fault)
        errno = answers[kind].fault;
    return answers[kind].fault ? -1 : 0;
}

/* An event with bytes, at most 1 MiB. */
static inline int fenloth_hand_in(struct fenloth *core, const char *word, const void *bytes, size_t n, const char *rest)
{
    const unsigned char *from = (const unsigned char *)bytes;
    size_t at;

    if (core->program <= 0)
        return fenloth_stop(core, NULL);
    if (n > FENLOTH_MOST) {
        errno = EMSGSIZE;
        return -1;
    }
    at = (size_t)sprintf(core->text, "%s %s", word, n ? "" : "-");
    for (size_t i = 0; i < n; i++) {
        core->text[at++] = "0123456789abcdef"[from[i] >> 4];
        core->text[at++] = "0123456789abcdef"[from[i] & 15];
    }
    strcpy(core->text + at, rest);
    return fenloth_event(core, core->text);
}

/* The value of a hexadecimal digit, without a branch that random digits would mispredict. */
static inline int fenloth_digit(char digit)
{
    return (digit & 15) + 9 * (digit >> 6);
}

/* A read, in events of 1 MiB at most. */
static inline ssize_t fenloth_read(struct fenloth *core, void *to, size_t n, const char *word, const char *flags)
{
    unsigned char *at = (unsigned char *)to;
    size_t left = n, piece;
    char event[64];

    do {
        piece = left < FENLOTH_MOST ? left : FENLOTH_MOST;
        snprintf(event, sizeof(event), "%s %zu%s", word, piece, flags);
        if (fenloth_event(core, event))
            return -1;
        if (piece ? strspn(core->data, "0123456789abcdef") != 2 * piece || core->data[2 * piece] : strcmp(core->data, "-"))
            return fenloth_stop(core, "gave no bytes, or another number");
        for (const char *digit = core->data; digit < core->data + 2 * piece; digit += 2)
            *at++ = (unsigned char)(fenloth_digit(digit[0]) << 4 | fenloth_digit(digit[1]));
    } while (left -= piece);
    return (ssize_t)n;
}

/* write(2) to /dev/random, at most 1 MiB. */
static inline ssize_t fenloth_write(struct fenloth *core, const void *bytes, size_t n)
{
    return fenloth_hand_in(core, "write", bytes, n, "") ? -1 : (ssize_t)n;
}

/* ioctl RNDADDENTROPY, and RNDADDTOENTCNT. At 256 bits the core is ready. */
static inline int fenloth_add(struct fenloth *core, const void *bytes, size_t n, int bits)
{
    char rest[16];

    snprintf(rest, sizeof(rest), " %d", bits);
    return bits < 0 ? (errno = EINVAL, -1) : fenloth_hand_in(core, "add", bytes, n, rest);
}

static inline int fenloth_credit(struct fenloth *core, int bits)
{
    char event[32];

    snprintf(event, sizeof(event), "credit %d", bits);
    return bits < 0 ? (errno = EINVAL, -1) : fenloth_event(core, event);
}

/* getrandom(2). Fails with EAGAIN, EINVAL, or EINTR if the kernel would wait, since no other caller could end the wait. */
static inline ssize_t fenloth_getrandom(struct fenloth *core, void *to, size_t n, unsigned flags)
{
    char rest[16];

    snprintf(rest, sizeof(rest), " %u", flags);
    return fenloth_read(core, to, n, "read", rest);
}

/* read(2) of /dev/urandom. */
static inline ssize_t fenloth_urandom(struct fenloth *core, void *to, size_t n)
{
    return fenloth_read(core, to, n, "uread", "");
}

/* ioctl RNDGETENTCNT: 0 to 256. */
static inline int fenloth_bits(struct fenloth *core)
{
    return fenloth_event(core, "bits") ? -1 : atoi(core->data);
}

/* Sets the moment, in milliseconds below 2^40. */
static inline int fenloth_at(struct fenloth *core, unsigned long long milliseconds)
{
    char event[32];

    snprintf(event, sizeof(event), "at %llu", milliseconds);
    return milliseconds >> 40 ? (errno = EINVAL, -1) : fenloth_event(core, event);
}

/* Runs the reseed timer: 1 if the timer was due and the core got a new key, otherwise 0. */
static inline int fenloth_tick(struct fenloth *core)
{
    return fenloth_event(core, "tick") ? -1 : !strcmp(core->answer, "fired");
}

/* Ends the session. 0: the record is whole, and `rng check SCRIPT TRANSCRIPT` judges it; -1: the core has failed. */
static inline int fenloth_close(struct fenloth *core)
{
    int failed = core->program <= 0;

    if (!failed) {
        strcpy(core->text, "end\n");
        failed = fenloth_ask(core, 4, "\nend\n") || fenloth_stop(core, NULL);
    }
    if (!failed && ((core->script && fflush(core->script)) || (core->transcript && fflush(core->transcript)))) {
        strcpy(core->problem, "the record cannot be written");
        failed = 1;
    }
    free(core->text);
    core->text = NULL;
    return failed ? (errno = EIO, -1) : 0;
}

#endif
