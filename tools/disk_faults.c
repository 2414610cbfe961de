/* Counts the calls on store files (those whose name begins with `store.` or `tidy.`), and has some of them fail.
   tools/disk_faults.py compiles it, and has a program preload it.

   DISK_FAULT is "FIRST LAST HOW": the calls of these numbers, from 1 on, fail with the error HOW, or, where HOW is 0,
   read and write half of what is asked. DISK_FAULT_LOG is a file that gets a letter for each call: r, w, s and t for
   reads, writes, syncs and cuts, and l for a read where the file is open for reading alone. */
#define _GNU_SOURCE
#include <errno.h>
#include <fcntl.h>
#include <stdio.h>
#include <stdlib.h>
#include <string.h>
#include <sys/syscall.h>
#include <unistd.h>

static long first = -1, last, how, calls;
static int to_log = -1;

static void begin(void) {
    const char *fault = getenv("DISK_FAULT"), *path = getenv("DISK_FAULT_LOG");
    first = 0;
    if (fault) sscanf(fault, "%ld %ld %ld", &first, &last, &how);
    if (path) to_log = syscall(SYS_openat, AT_FDCWD, path, O_WRONLY | O_CREAT | O_APPEND | O_CLOEXEC, 0600);
}

static int is_of_a_store(int file) {
    char place[64], path[4096];
    snprintf(place, sizeof place, "/proc/self/fd/%d", file);
    long size = readlink(place, path, sizeof path - 1);
    if (size <= 0) return 0;
    path[size] = 0;
    const char *name = strrchr(path, '/');
    return name && (strncmp(name + 1, "store.", 6) == 0 || strncmp(name + 1, "tidy.", 5) == 0);
}

/* Whether this call is to fail. */
static int fails(int file, char kind) {
    int kept = errno;
    if (first < 0) begin();
    int is_store = is_of_a_store(file);
    if (is_store && kind == 'r' && (fcntl(file, F_GETFL) & O_ACCMODE) == O_RDONLY) kind = 'l';
    if (is_store && to_log >= 0) syscall(SYS_write, to_log, &kind, 1L);
    errno = kept;
    if (!is_store) return 0;
    calls += 1;
    return first <= calls && calls <= last;
}

static long failed(void) {
    errno = how;
    return -1;
}

#define MOVED(NAME, NUMBER, KIND, BYTES, PLACE, AT)           \
    ssize_t NAME(int file, BYTES bytes, size_t count PLACE) { \
        if (fails(file, KIND)) {                              \
            if (how) return failed();                         \
            if (count > 1) count /= 2;                        \
        }                                                     \
        return syscall(NUMBER, (long)file, bytes, count AT);  \
    }
#define NOTHING
#define COMMA ,

MOVED(read, SYS_read, 'r', void *, NOTHING, NOTHING)
MOVED(write, SYS_write, 'w', const void *, NOTHING, NOTHING)
MOVED(pread, SYS_pread64, 'r', void *, COMMA off_t place, COMMA (long)place)
MOVED(pread64, SYS_pread64, 'r', void *, COMMA off_t place, COMMA (long)place)
MOVED(pwrite, SYS_pwrite64, 'w', const void *, COMMA off_t place, COMMA (long)place)
MOVED(pwrite64, SYS_pwrite64, 'w', const void *, COMMA off_t place, COMMA (long)place)

int fsync(int file) { return fails(file, 's') && how ? failed() : syscall(SYS_fsync, (long)file); }
int fdatasync(int file) { return fails(file, 's') && how ? failed() : syscall(SYS_fdatasync, (long)file); }
int ftruncate(int file, off_t size) {
    return fails(file, 't') && how ? failed() : syscall(SYS_ftruncate, (long)file, (long)size);
}
int ftruncate64(int file, off_t size) { return ftruncate(file, size); }
