// The memory that the server shares with its clients: room for one request and its answer. A client is a process that
// uses the library, or the supervisor. A client holds the lock from its request until it has copied the answer, so
// requests have one order. Once the memory is mapped, a client needs no descriptor, path or right: futex(2) is its only
// call.
#ifndef MAILBOX_H
#define MAILBOX_H

#include <pthread.h>
#include <stdint.h>
#include <sys/types.h>

enum { MOST = 1 << 20, STATUS_OWN = 125, OVER = -100000 };

// The script events that answer requests. OPENS is no event: it asks for the error of opening a random device.
enum word { READ, DREAD, UREAD, WRITE, ADD, CREDIT, BITS, RESEED, OPENS };

struct request {
    uint64_t asked;           // number of bytes that the program asks for, or hands in
    uint32_t flags;           // of getrandom; for a read of a file 1 if it does not wait; for a credit its bits
    uint32_t process, thread; // the program's
    uint32_t word;
};

struct mailbox {
    union {
        pthread_mutex_t lock; // held by the client whose request is here
        char lock_room[64];
    };
    union {
        pthread_mutex_t alive; // the server holds it while it lives
        char alive_room[64];
    };
    uint32_t asked;    // the number of the newest request, which may wrap
    uint32_t bell;     // changes if there is a new request, or if the server has to end
    uint32_t answered; // the number of the request that was answered last
    uint32_t is_loaded;
    uint32_t left_root;       // a process has changed its root folder
    uint32_t is_open_watched; // the prologue has an error for opens of a random device
    struct request wish;
    int64_t answer;                             // a number of bytes or bits, the negative of an errno, or OVER
    _Alignas(64) unsigned char data[MOST];      // bytes that the program hands in, or is given
};

// Maps the memory that RNG_UNDER names. NULL if that fails, with the cause in errno.
struct mailbox *mailbox_map(void);

// Waits until no other client uses the memory. After that, bytes that the program hands in may be put into `data`.
void mailbox_lock(struct mailbox *box);
void mailbox_unlock(struct mailbox *box);

// Returns the answer, whose bytes are in `data`. The caller holds the lock. OVER: no more requests are served.
long mailbox_ask(struct mailbox *box, struct request wish);

// Writes the cause to standard error, and ends the process.
void mailbox_fail(const char *why) __attribute__((noreturn));

long futex(uint32_t *at, int operation, uint32_t value, long nanoseconds);

// The event for reads of an open file, or -1 if it is neither random device.
int word_of_device(mode_t mode, dev_t device);

// Whether an ioctl changes the core. For such an ioctl the kernel demands CAP_SYS_ADMIN.
int is_control(unsigned long request);

#endif
