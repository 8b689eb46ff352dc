// A session of `rng live`, and its record: a script and a transcript, which grow with each event. If a record is nearly
// full, the session ends. A new one begins with a seed that the old one left, as a machine keeps a seed over a reboot.
#ifndef SESSION_H
#define SESSION_H

#include <stddef.h>
#include <stdint.h>

enum { LONGEST = (2 << 20) + 8192 }; // characters of an event's line, in the script or in the transcript

// The room of a record.
struct limits {
    unsigned events;
    unsigned bytes; // bytes of all reads together
    size_t text;    // bytes of the script's text
};

// The line of an event: its number, its answer, whether the core was not ready, and its data.
struct line {
    unsigned number;
    const char *answer;
    int is_unready;
    const char *data;
};

// Begins the first record: the files script-1 and transcript-1 in the folder. All functions here return 0, or -1 after
// give_up.
int session_begin(const char *program, const char *folder, const char *cpus, struct limits limits);

// Makes an event, whose text ends with a line feed. `bytes` is the number of bytes that a read asks for, else 0. The
// texts of its line are kept until the next event.
int session_make(const char *event, uint32_t bytes, struct line *line);

int session_end(void);

// The number of the record, from 1.
unsigned session_number(void);

// Keeps the first reason why nothing more can be served, and returns -1.
int give_up(const char *format, ...) __attribute__((format(printf, 1, 2)));

// The reason that was kept, or an empty text.
const char *session_fault(void);

#endif
