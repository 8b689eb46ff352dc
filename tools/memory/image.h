// An image of a machine's memory: mapped, cut into parts that threads take one by one, with a report of their progress.
#ifndef IMAGE_H
#define IMAGE_H
#include <errno.h>
#include <fcntl.h>
#include <pthread.h>
#include <stdarg.h>
#include <stddef.h>
#include <stdint.h>
#include <stdio.h>
#include <stdlib.h>
#include <string.h>
#include <sys/mman.h>
#include <sys/stat.h>
#include <time.h>
#include <unistd.h>

enum { PART = 1 << 22, MOST_THREADS = 64, FAULT = 2, REPORT_AFTER = 2, MARGIN = 1 << 16 };

static const char *image_program;

static __attribute__((noreturn, format(printf, 1, 2))) void fail(const char *format, ...) {
    va_list words;
    va_start(words, format);
    fprintf(stderr, "%s: ", image_program);
    vfprintf(stderr, format, words);
    fputc('\n', stderr);
    va_end(words);
    exit(FAULT);
}

// There are MARGIN bytes of zeros before the image and after it, so a search need not check the end.
struct image {
    const uint8_t *bytes;
    size_t size;
};

static struct image open_image(const char *path) {
    struct image image;
    struct stat about;
    int file = open(path, O_RDONLY | O_CLOEXEC);
    if (file < 0 || fstat(file, &about))
        fail("%s: %s", path, strerror(errno));
    if (!S_ISREG(about.st_mode))
        fail("%s is no file of a memory", path);
    if (!about.st_size)
        fail("%s is empty", path);
    image.size = (size_t)about.st_size;
    uint8_t *room = mmap(NULL, image.size + 3 * MARGIN, PROT_READ, MAP_PRIVATE | MAP_ANONYMOUS | MAP_NORESERVE, -1, 0);
    if (room == MAP_FAILED ||
        mmap(room + MARGIN, image.size, PROT_READ, MAP_SHARED | MAP_FIXED, file, 0) == MAP_FAILED)
        fail("%s: %s", path, strerror(errno));
    image.bytes = room + MARGIN;
    close(file);
    if (image.size >= 8 && (!memcmp(image.bytes, "KDUMP   ", 8) || !memcmp(image.bytes, "makedump", 8)))
        fail("%s is a compressed dump: makedumpfile -E or crash can write it out as it is", path);
    return image;
}

// ---- Threads -----------------------------------------------------------------------------------------------------

// Searches the bytes from `from` up to `to`, which is left out. The search may read the bytes after `to`, up to the
// image's end.
typedef void part_search(const struct image *image, size_t from, size_t to);

static struct {
    const struct image *image;
    part_search *search;
    size_t from, to, next, done;
} work;

static void *take_parts(void *unused) {
    size_t from;
    while ((from = __atomic_fetch_add(&work.next, PART, __ATOMIC_RELAXED)) < work.to) {
        size_t to = from + PART < work.to ? from + PART : work.to;
        work.search(work.image, from, to);
        __atomic_fetch_add(&work.done, to - from, __ATOMIC_RELEASE);
    }
    return unused;
}

static void report_progress(void) {
    struct timespec pause = {0, 50000000};
    time_t began = time(NULL), reported = began;
    size_t whole = work.to - work.from, done;
    while ((done = __atomic_load_n(&work.done, __ATOMIC_ACQUIRE)) < whole) {
        if (time(NULL) - reported >= REPORT_AFTER) {
            reported = time(NULL);
            fprintf(stderr, "%s: %zu of %zu MiB\n", image_program, done >> 20, whole >> 20);
        }
        nanosleep(&pause, NULL);
    }
}

static void search_all(const struct image *image, size_t from, size_t to, int threads, part_search *search) {
    pthread_t each[MOST_THREADS];
    int count = 0;
    work.image = image, work.search = search, work.from = work.next = from, work.to = to;
    while (count < threads && count < MOST_THREADS && !pthread_create(&each[count], NULL, take_parts, NULL))
        count++;
    if (!count)
        take_parts(NULL);
    report_progress();
    while (count)
        pthread_join(each[--count], NULL);
}

// ---- Words of a command ------------------------------------------------------------------------------------------

static size_t number_of(const char *word, const char *name) {
    char *end;
    errno = 0;
    unsigned long long number = strtoull(word, &end, 0);
    if (errno || end == word || *end || *word == '-' || *word == ' ')
        fail("%s is no number: %s", name, word);
    return (size_t)number;
}

static int threads_by_default(void) {
    long online = sysconf(_SC_NPROCESSORS_ONLN);
    return online < 1 ? 1 : online > MOST_THREADS ? MOST_THREADS : (int)online;
}

#endif
