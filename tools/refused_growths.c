// Refuses one growth of a program's memory: the call of this number, of those that give memory. The
// number stands in the environment, as REFUSED_GROWTH, and counts from 1; REFUSED_COUNT names a file
// whose first eight bytes count all calls, however the program ends. It is loaded before the program:
//
//     cc -shared -fPIC -O2 -o refused_growths.so tools/refused_growths.c
//     REFUSED_GROWTH=7 LD_PRELOAD=./refused_growths.so PROGRAM
#include <errno.h>
#include <fcntl.h>
#include <stdatomic.h>
#include <stddef.h>
#include <stdlib.h>
#include <sys/mman.h>
#include <unistd.h>

void *__libc_malloc(size_t size);
void *__libc_calloc(size_t count, size_t size);
void *__libc_realloc(void *old, size_t size);
void *__libc_memalign(size_t alignment, size_t size);

static atomic_long own;
static atomic_long *calls = &own;
static long refused;
static int ready;

static int is_refused(void) {
    if (!ready) return 0;
    if (atomic_fetch_add(calls, 1) + 1 != refused) return 0;
    errno = ENOMEM;
    return 1;
}

void *malloc(size_t size) { return is_refused() ? NULL : __libc_malloc(size); }

void *calloc(size_t count, size_t size) { return is_refused() ? NULL : __libc_calloc(count, size); }

void *realloc(void *old, size_t size) { return is_refused() ? NULL : __libc_realloc(old, size); }

void *aligned_alloc(size_t alignment, size_t size) {
    return is_refused() ? NULL : __libc_memalign(alignment, size);
}

int posix_memalign(void **to, size_t alignment, size_t size) {
    if (is_refused()) return ENOMEM;
    *to = __libc_memalign(alignment, size);
    return *to ? 0 : ENOMEM;
}

// Counts in the file of this name, which is made.
static void count_in(const char *name) {
    int file = open(name, O_RDWR | O_CREAT | O_TRUNC, 0600);
    if (file < 0 || ftruncate(file, sizeof own) != 0) return;
    void *shared = mmap(NULL, sizeof own, PROT_READ | PROT_WRITE, MAP_SHARED, file, 0);
    if (shared != MAP_FAILED) calls = shared;
    close(file);
}

__attribute__((constructor)) static void begin(void) {
    const char *number = getenv("REFUSED_GROWTH"), *name = getenv("REFUSED_COUNT");
    refused = number ? atol(number) : 0;
    if (name) count_in(name);
    ready = 1;
}
