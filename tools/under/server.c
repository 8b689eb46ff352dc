// Answers requests for rng-under, one at a time, by the core. Each request becomes an event of a session of `rng live`,
// and gets the answer and the bytes of the event's line. Between two requests the events of the prologue are made when
// they are due. The server ends at SIGTERM, and writes lines for rng-under to standard output.
#define _GNU_SOURCE
#include "mailbox.h"
#include "session.h"

#include <errno.h>
#include <fcntl.h>
#include <inttypes.h>
#include <limits.h>
#include <linux/futex.h>
#include <signal.h>
#include <stdio.h>
#include <stdlib.h>
#include <string.h>
#include <sys/mman.h>
#include <sys/prctl.h>
#include <sys/stat.h>
#include <unistd.h>

static const char *const WORDS[] = {"read", "dread", "uread", "write", "add", "credit", "bits", "reseed"};

static struct mailbox *box;
static FILE *list; // the list of requests, if it is wanted
static uint64_t served, most;
static int is_spent; // a request came after the last one that has to be served
static volatile sig_atomic_t is_over;

// ---- The prologue ------------------------------------------------------------------------------------------------

// An error of the prologue, which answers instead of the core.
struct fault {
    uint32_t kind;    // 0: none; an errno, or AT_END
    uint32_t words;   // a bit for each word that it answers
    uint32_t is_kept; // it answers each request, and not one only
};
enum { AT_END = 0x10000 }; // a read of no byte, as at the end of a file

static struct fault of_requests, of_opens;
static uint32_t cut, is_cut_kept; // if not 0, the next request for more bytes than this gets only so many

// The rest of the prologue: its lines, each with the number of requests after which it is due.
static FILE *plan;
static char *part;
static size_t part_room;
static ssize_t part_length;
static uint64_t due;

static void next_part(void) {
    part_length = getline(&part, &part_room, plan);
    due = part_length > 0 ? strtoull(part, NULL, 10) : UINT64_MAX;
}

// The number of bytes that a read asks for.
static uint32_t bytes_read(const char *event) {
    static const char *const reads[] = {"read ", "vread ", "kread ", "dread ", "uread "};
    for (size_t at = 0; at < sizeof reads / sizeof *reads; at++)
        if (!strncmp(event, reads[at], strlen(reads[at])))
            return (uint32_t)strtoul(event + strlen(reads[at]), NULL, 10);
    return 0;
}

static int take_part(const char *text) {
    struct line line;
    struct fault it = {0, 1, 0};
    if (sscanf(text, "short %" SCNu32 " %" SCNu32, &cut, &is_cut_kept) == 2)
        return 0;
    if (sscanf(text, "fault %" SCNu32 " %" SCNu32 " %" SCNu32, &it.kind, &it.words, &it.is_kept) == 3)
        of_requests = it;
    else if (sscanf(text, "opens %" SCNu32 " %" SCNu32, &it.kind, &it.is_kept) == 2)
        of_opens = it;
    else
        return session_make(text, bytes_read(text), &line);
    return 0;
}

// Makes the events that are due after the requests so far.
static int feed(void) {
    for (; due <= served; next_part())
        if (take_part(strchr(part, ' ') + 1))
            return -1;
    return 0;
}

static uint32_t take_fault(struct fault *fault, uint32_t word) {
    uint32_t kind = fault->words & 1U << word ? fault->kind : 0;
    if (kind && !fault->is_kept)
        fault->kind = 0;
    return kind;
}

// ---- A request as an event ---------------------------------------------------------------------------------------

static char event[LONGEST];

static void put_hex(char *to, const unsigned char *bytes, size_t length) {
    static const char digits[] = "0123456789abcdef";
    for (size_t at = 0; at < length; at++) {
        *to++ = digits[bytes[at] >> 4];
        *to++ = digits[bytes[at] & 15];
    }
    *to = '\0';
}

// For each digit, its value plus one.
static const unsigned char VALUES[256] = {['0'] = 1, ['1'] = 2,  ['2'] = 3,  ['3'] = 4,  ['4'] = 5,  ['5'] = 6,
                                          ['6'] = 7, ['7'] = 8,  ['8'] = 9,  ['9'] = 10, ['a'] = 11, ['b'] = 12,
                                          ['c'] = 13, ['d'] = 14, ['e'] = 15, ['f'] = 16};

static int take_hex(unsigned char *to, const char *digits, size_t length) {
    int is_hex = strlen(digits) == 2 * length;
    for (size_t at = 0; is_hex && at < length; at++) {
        unsigned high = VALUES[(unsigned char)digits[2 * at]], low = VALUES[(unsigned char)digits[2 * at + 1]];
        is_hex = high && low;
        to[at] = (unsigned char)((high - 1) << 4 | (low - 1));
    }
    return is_hex ? 0 : give_up("a line of `rng live` has other bytes than its event asks for");
}

// Writes the event of a request. `length` is the number of bytes that the event asks for, or contains.
static void write_event(const struct request *wish, uint32_t length) {
    const char *word = WORDS[wish->word];
    size_t at = (size_t)snprintf(event, sizeof event, "%s", word);
    if (wish->word <= UREAD)
        at += (size_t)snprintf(event + at, sizeof event - at, " %" PRIu32, length);
    if (wish->word == WRITE || wish->word == ADD) {
        event[at++] = ' ';
        put_hex(event + at, box->data, length);
        at += 2 * (size_t)length;
    }
    if (wish->word == READ || wish->word == DREAD || wish->word == ADD || wish->word == CREDIT)
        at += (size_t)snprintf(event + at, sizeof event - at, " %" PRIu32, wish->flags);
    (void)snprintf(event + at, sizeof event - at, "\n");
}

static int errno_of(const char *answer) {
    static const struct {
        const char *name;
        int number;
    } known[] = {{"ok", 0}, {"EAGAIN", EAGAIN}, {"EINTR", EINTR}, {"EINVAL", EINVAL}, {"ENODATA", ENODATA}};
    for (size_t at = 0; at < sizeof known / sizeof *known; at++)
        if (!strcmp(answer, known[at].name))
            return known[at].number;
    return give_up("`rng live` answered %s, which is no answer of a request", answer);
}

// The bytes that the program gets from a line whose answer is ok.
static int64_t result_of(const struct request *wish, uint32_t length, const char *data) {
    if (wish->word <= UREAD)
        return length && take_hex(box->data, data, length) ? OVER : (int64_t)length;
    if (wish->word == BITS)
        return (int64_t)strtoul(data, NULL, 10);
    return wish->word == WRITE ? (int64_t)length : 0;
}

static int64_t make_event(const struct request *wish, struct line *line) {
    uint32_t whole = wish->asked > MOST ? MOST : (uint32_t)wish->asked;
    int is_read = wish->word <= UREAD, is_cut = is_read && cut && whole > cut;
    uint32_t length = is_cut ? cut : whole;
    write_event(wish, length);
    int failed = session_make(event, is_read ? length : 0, line);
    int number = failed ? -1 : errno_of(line->answer);
    if (number < 0)
        return OVER;
    if (is_cut && !number && !is_cut_kept)
        cut = 0;
    return number ? -number : result_of(wish, length, line->data);
}

// ---- Requests ----------------------------------------------------------------------------------------------------

static int is_lawful(const struct request *wish) {
    int has_bytes = wish->word == WRITE || wish->word == ADD, has_credit = wish->word == ADD || wish->word == CREDIT;
    return wish->word <= OPENS && (!has_bytes || (wish->asked && wish->asked <= MOST)) &&
           (!has_credit || wish->flags <= INT_MAX) && (wish->word != DREAD || wish->flags <= 1);
}

// If an error of the prologue answers a request, the request has no event.
static void note(const struct request *wish, const struct line *line, int64_t answer) {
    char place[32] = "-";
    served++;
    if (line)
        (void)snprintf(place, sizeof place, "%u", line->number);
    if (list && fprintf(list, "%u %s %" PRIu32 " %" PRIu32 " %s %" PRIu64 " %" PRIu32 " %" PRId64 "\n", session_number(),
                        place, wish->process, wish->thread, WORDS[wish->word], wish->asked, wish->flags, answer) < 0)
        (void)give_up("the list of requests cannot be written: %s", strerror(errno));
}

static int64_t serve(const struct request *wish) {
    struct line line;
    if (*session_fault() || feed())
        return OVER;
    if (wish->word == OPENS)
        return take_fault(&of_opens, 0);
    if (served >= most) {
        is_spent = 1;
        return OVER;
    }
    uint32_t kind = take_fault(&of_requests, wish->word);
    int64_t answer = kind ? (kind == AT_END ? 0 : -(int64_t)kind) : make_event(wish, &line);
    if (answer != OVER)
        note(wish, kind ? NULL : &line, answer);
    return answer;
}

// All programs can write the shared memory.
static void answer(uint32_t asked, uint32_t answered) {
    struct request wish = box->wish;
    if (asked != answered + 1 || !is_lawful(&wish))
        (void)give_up("the memory that is shared with the program was damaged");
    box->answer = serve(&wish);
    __atomic_store_n(&box->answered, asked, __ATOMIC_SEQ_CST);
    futex(&box->answered, FUTEX_WAKE, INT_MAX, 0);
}

static void serve_all(void) {
    for (uint32_t answered = 0;;) {
        uint32_t bell = __atomic_load_n(&box->bell, __ATOMIC_SEQ_CST);
        uint32_t asked = __atomic_load_n(&box->asked, __ATOMIC_SEQ_CST);
        if (asked != answered) {
            answer(asked, answered);
            answered = asked;
        } else if (is_over) {
            return;
        } else {
            futex(&box->bell, FUTEX_WAIT, bell, 0);
        }
    }
}

// ---- Begin and end -----------------------------------------------------------------------------------------------

static void stop(int number) {
    (void)number;
    is_over = 1;
    __atomic_add_fetch(&box->bell, 1, __ATOMIC_SEQ_CST);
}

// Mutexes that processes share, and that survive a process that is killed.
static int make_locks(void) {
    pthread_mutexattr_t kind;
    return pthread_mutexattr_init(&kind) || pthread_mutexattr_setpshared(&kind, PTHREAD_PROCESS_SHARED) ||
           pthread_mutexattr_setrobust(&kind, PTHREAD_MUTEX_ROBUST) || pthread_mutex_init(&box->lock, &kind) ||
           pthread_mutex_init(&box->alive, &kind) || pthread_mutex_lock(&box->alive);
}

// A program that root starts may drop its rights, and is still served.
static int make_mailbox(const char *path) {
    int file = open(path, O_RDWR | O_CREAT | O_EXCL | O_CLOEXEC, 0600);
    int failed = file < 0 ? errno : posix_fallocate(file, 0, sizeof *box);
    if (failed)
        return give_up("%s: 2 MiB are needed there: %s; TMPDIR can name another folder", path, strerror(failed));
    if (!geteuid() && fchmod(file, 0666))
        return give_up("%s: %s", path, strerror(errno));
    box = mmap(NULL, sizeof *box, PROT_READ | PROT_WRITE, MAP_SHARED, file, 0);
    close(file);
    return box == MAP_FAILED || make_locks() ? give_up("the locks cannot be made") : 0;
}

static FILE *opened(const char *path, const char *mode) {
    FILE *file = *path ? fopen(path, mode) : NULL;
    if (*path && !file)
        (void)give_up("%s: %s", path, strerror(errno));
    return file;
}

// The server survives signals that a terminal sends to all processes, but not the end of rng-under.
static void set_signals(pid_t parent) {
    static const int ignored[] = {SIGINT, SIGQUIT, SIGHUP, SIGTERM, SIGPIPE, SIGXFSZ};
    for (size_t at = 0; at < sizeof ignored / sizeof *ignored; at++)
        (void)signal(ignored[at], SIG_IGN);
    prctl(PR_SET_PDEATHSIG, SIGKILL, 0, 0, 0);
    if (getppid() != parent)
        _exit(STATUS_OWN);
}

enum { PARENT = 1, PATH, FOLDER, PROGRAM, CPUS, PLAN, LIST, MOST_REQUESTS, EVENTS, BYTES, TEXT, COUNT };

static int begin(char **words) {
    struct limits limits = {(unsigned)strtoul(words[EVENTS], NULL, 10), (unsigned)strtoul(words[BYTES], NULL, 10),
                            strtoul(words[TEXT], NULL, 10)};
    most = strtoull(words[MOST_REQUESTS], NULL, 10);
    plan = opened(words[PLAN], "re");
    list = opened(words[LIST], "we");
    if (make_mailbox(words[PATH]) || !plan || *session_fault())
        return -1;
    if (session_begin(words[PROGRAM], words[FOLDER], words[CPUS], limits))
        return -1;
    for (next_part(); part_length > 0; next_part())
        box->is_open_watched |= strstr(part, " opens ") != NULL;
    rewind(plan);
    next_part();
    return feed();
}

// The last line has the number of requests, that of records, three flags, and the fault, if there is one.
static int end(void) {
    int failed = session_end();
    if (list && fclose(list))
        failed = give_up("the list of requests cannot be written: %s", strerror(errno));
    printf("end %" PRIu64 " %u %d %" PRIu32 " %" PRIu32 " %s\n", served, session_number(), is_spent, box->is_loaded,
           box->left_root, session_fault());
    return failed || fflush(stdout) ? STATUS_OWN : 0;
}

int main(int count, char **words) {
    if (count != COUNT)
        mailbox_fail("the server is started by rng-under");
    set_signals((pid_t)strtol(words[PARENT], NULL, 10));
    (void)umask(077);
    if (begin(words)) {
        printf("failed %s\n", session_fault());
        return STATUS_OWN;
    }
    sigaction(SIGTERM, &(struct sigaction){.sa_handler = stop, .sa_flags = SA_RESTART}, NULL);
    if (puts("ready") < 0 || fflush(stdout))
        return STATUS_OWN;
    serve_all();
    return end();
}
