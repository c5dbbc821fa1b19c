/* A malloc that is refused once. Loaded in front of the C library (LD_PRELOAD), it counts the calls
 * of malloc, realloc and calloc. The one with a given number returns NULL; all others are the C
 * library's. Both numbers are in the file that REFUSED_COUNTS names, 16 bytes of shared memory: the
 * calls up to now, and the call that is refused (from 1; 0 is none). So the number can be set before
 * a process starts, or while it waits, where the count is set to 0 again.
 *
 * A proved program calls malloc and realloc for its growths alone, and none before `main`. The C
 * library calls calloc where a thread starts. */
#include <errno.h>
#include <fcntl.h>
#include <stddef.h>
#include <stdint.h>
#include <stdlib.h>
#include <sys/mman.h>

struct counts {
	uint64_t calls;
	uint64_t refused;
};

extern void *__libc_malloc(size_t);
extern void *__libc_realloc(void *, size_t);
extern void *__libc_calloc(size_t, size_t);

static struct counts nobody;
static struct counts *counts = &nobody;

__attribute__((constructor)) static void find_counts(void)
{
	const char *name = getenv("REFUSED_COUNTS");
	int file = name == NULL ? -1 : open(name, O_RDWR | O_CLOEXEC);
	if (file == -1)
		_Exit(125);
	void *found = mmap(NULL, sizeof(*counts), PROT_READ | PROT_WRITE, MAP_SHARED, file, 0);
	if (found == MAP_FAILED)
		_Exit(125);
	counts = found;
}

static int is_refused(void)
{
	uint64_t call = __atomic_add_fetch(&counts->calls, 1, __ATOMIC_SEQ_CST);
	if (call != __atomic_load_n(&counts->refused, __ATOMIC_SEQ_CST))
		return 0;
	errno = ENOMEM;
	return 1;
}

void *malloc(size_t size)
{
	return is_refused() ? NULL : __libc_malloc(size);
}

void *realloc(void *old, size_t size)
{
	return is_refused() ? NULL : __libc_realloc(old, size);
}

void *calloc(size_t count, size_t size)
{
	return is_refused() ? NULL : __libc_calloc(count, size);
}
