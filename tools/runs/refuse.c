// Refuses chosen allocations of a program that is started with it (LD_PRELOAD).
//
// REFUSE_FIRST is the number of the first allocation to refuse, counted from 1; 0 refuses none.
// REFUSE_EVERY is the distance from one refused allocation to the next; 0 refuses only the first.
// REFUSE_STAT is the number of the question for a file's metadata to fail, with the error REFUSE_ERROR;
// 0 fails none.
// REFUSE_LOG names a file, to which each refusal appends a byte. Giving memory back is never refused.
#define _GNU_SOURCE
#include <errno.h>
#include <fcntl.h>
#include <stdatomic.h>
#include <stdlib.h>
#include <sys/stat.h>
#include <sys/syscall.h>
#include <unistd.h>

void *__libc_malloc(size_t size);
void *__libc_calloc(size_t count, size_t size);
void *__libc_realloc(void *block, size_t size);
void *__libc_memalign(size_t align, size_t size);

static atomic_long made, asked;
static long first, every, unsure;

// Returns the number that a variable of the environment has; 0 if it isn't there.
static long setting(const char *name)
{
	const char *text = getenv(name);
	return text ? atol(text) : 0;
}

__attribute__((constructor)) static void begin(void)
{
	first = setting("REFUSE_FIRST");
	every = setting("REFUSE_EVERY");
	unsure = setting("REFUSE_STAT");
	atomic_store(&made, 0);
}

// Appends a byte to the log: a program that ends by _exit runs nothing at its end.
static void note(void)
{
	const char *name = getenv("REFUSE_LOG");
	int log = name ? open(name, O_WRONLY | O_CREAT | O_APPEND, 0666) : -1;
	if (log >= 0 && (write(log, "r", 1) != 1 || close(log) != 0))
		_exit(99);
}

// Counts an allocation, and returns whether it is refused.
static int is_refused(void)
{
	long past = atomic_fetch_add(&made, 1) + 1 - first;
	if (first == 0 || past < 0 || (past > 0 && (every == 0 || past % every != 0)))
		return 0;
	note();
	errno = ENOMEM;
	return 1;
}

void *malloc(size_t size)
{
	return is_refused() ? NULL : __libc_malloc(size);
}

void *calloc(size_t count, size_t size)
{
	return is_refused() ? NULL : __libc_calloc(count, size);
}

void *realloc(void *block, size_t size)
{
	return is_refused() ? NULL : __libc_realloc(block, size);
}

void *aligned_alloc(size_t align, size_t size)
{
	return is_refused() ? NULL : __libc_memalign(align, size);
}

int posix_memalign(void **block, size_t align, size_t size)
{
	if (is_refused())
		return ENOMEM;
	*block = __libc_memalign(align, size);
	return *block ? 0 : ENOMEM;
}

int statx(int folder, const char *restrict path, int flags, unsigned int mask, struct statx *restrict found)
{
	if (unsure != 0 && atomic_fetch_add(&asked, 1) + 1 == unsure) {
		note();
		errno = (int)setting("REFUSE_ERROR");
		return -1;
	}
	return (int)syscall(SYS_statx, folder, path, flags, mask, found);
}
