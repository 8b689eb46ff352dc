/* If this is loaded before the C library (LD_PRELOAD), it refuses request number FAIL_ALLOC for memory, and counts the
   requests. At the end it writes into the file FAIL_ALLOC_COUNTS how many requests there were, how many of them came
   after the first start of a thread, how many of those the C library made to start a thread, and how many threads
   started. */
#define _GNU_SOURCE
#include <dlfcn.h>
#include <errno.h>
#include <pthread.h>
#include <stdatomic.h>
#include <stdio.h>
#include <stdlib.h>
#include <sys/syscall.h>
#include <unistd.h>

extern void *__libc_malloc(size_t);
extern void *__libc_calloc(size_t, size_t);
extern void *__libc_realloc(void *, size_t);
extern void *__libc_memalign(size_t, size_t);

static atomic_ulong all, after_start, in_start, starts;
static __thread int starting;

static int is_refused(void)
{
	static atomic_ulong wanted;
	unsigned long number = atomic_fetch_add(&all, 1) + 1;
	unsigned long refused = atomic_load(&wanted);
	if (!refused) {
		const char *text = getenv("FAIL_ALLOC");
		refused = text ? strtoul(text, NULL, 10) : -1ul;
		atomic_store(&wanted, refused);
	}
	if (atomic_load(&starts))
		atomic_fetch_add(&after_start, 1);
	if (starting)
		atomic_fetch_add(&in_start, 1);
	if (number != refused)
		return 0;
	errno = ENOMEM;
	return 1;
}

void *malloc(size_t size)
{
	return is_refused() ? NULL : __libc_malloc(size);
}

void *calloc(size_t count, size_t size)
{
	return is_refused() ? NULL : __libc_calloc(count, size);
}

void *realloc(void *old, size_t size)
{
	return is_refused() ? NULL : __libc_realloc(old, size);
}

void *aligned_alloc(size_t align, size_t size)
{
	return is_refused() ? NULL : __libc_memalign(align, size);
}

void *memalign(size_t align, size_t size)
{
	return is_refused() ? NULL : __libc_memalign(align, size);
}

int posix_memalign(void **made, size_t align, size_t size)
{
	if (is_refused())
		return ENOMEM;
	*made = __libc_memalign(align, size);
	return *made ? 0 : ENOMEM;
}

int pthread_create(pthread_t *thread, const pthread_attr_t *attr, void *(*run)(void *), void *given)
{
	static int (*next)(pthread_t *, const pthread_attr_t *, void *(*)(void *), void *);
	int answer;

	if (!next)
		next = (int (*)(pthread_t *, const pthread_attr_t *, void *(*)(void *), void *))dlsym(RTLD_NEXT,
			"pthread_create");
	atomic_fetch_add(&starts, 1);
	starting = 1;
	answer = next(thread, attr, run, given);
	starting = 0;
	return answer;
}

static void write_counts(void)
{
	unsigned long counts[] = { atomic_load(&all), atomic_load(&after_start), atomic_load(&in_start),
				   atomic_load(&starts) };
	const char *name = getenv("FAIL_ALLOC_COUNTS");
	FILE *file = name ? fopen(name, "w") : NULL;

	if (!file)
		return;
	fprintf(file, "%lu %lu %lu %lu\n", counts[0], counts[1], counts[2], counts[3]);
	fclose(file);
}

/* The program ends here, and runs no destructor. */
void _exit(int status)
{
	write_counts();
	for (;;)
		syscall(SYS_exit_group, status);
}
