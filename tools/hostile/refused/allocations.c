/* Counts the allocations of a program and refuses some of them: it is loaded before the C library (LD_PRELOAD).
 *
 * The file that REFUSED_COUNTS names has three numbers of 64 bits: how many allocations there were, and the first and the last
 * that are refused, counted from 1. So they can be read whatever way the program ends.
 */
#include <errno.h>
#include <fcntl.h>
#include <stddef.h>
#include <stdint.h>
#include <stdlib.h>
#include <sys/mman.h>

extern void *__libc_malloc(size_t);
extern void *__libc_calloc(size_t, size_t);
extern void *__libc_realloc(void *, size_t);

struct counts {
    uint64_t made, first, last;
};

static struct counts *counts;

/* Allocations before this are the loader's. */
__attribute__((constructor)) static void begin(void) {
    const char *path = getenv("REFUSED_COUNTS");
    int file = path ? open(path, O_RDWR | O_CLOEXEC) : -1;
    void *shared = file < 0 ? MAP_FAILED : mmap(NULL, sizeof *counts, PROT_READ | PROT_WRITE, MAP_SHARED, file, 0);
    if (shared == MAP_FAILED) abort();
    counts = shared;
}

/* Whether this allocation is refused. */
static int is_refused(void) {
    if (!counts) return 0;
    uint64_t number = __atomic_add_fetch(&counts->made, 1, __ATOMIC_RELAXED);
    int refused = counts->first <= number && number <= counts->last;
    if (refused) errno = ENOMEM;
    return refused;
}

void *malloc(size_t size) {
    return is_refused() ? NULL : __libc_malloc(size);
}

void *calloc(size_t count, size_t size) {
    return is_refused() ? NULL : __libc_calloc(count, size);
}

void *realloc(void *old, size_t size) {
    return is_refused() ? NULL : __libc_realloc(old, size);
}
