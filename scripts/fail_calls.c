/* Loaded before the C library (LD_PRELOAD), it makes one call fail: the one of the kind FAIL_KIND (memory, open, read or write) whose
   number, from 1, is FAIL_AT. A failed request for memory gives none; another failed call is an EIO. Of the kind end it is a read that
   gives nothing, as at the end of a file. Where that call is reached the file FAIL_MARK is made. Calls are counted from the program's start on, the loader's own left out. A read gives at most READ_MOST
   bytes, and a write takes at most WRITE_MOST, where these are set. */
#define _GNU_SOURCE
#include <dlfcn.h>
#include <errno.h>
#include <fcntl.h>
#include <stdarg.h>
#include <stdatomic.h>
#include <stdlib.h>
#include <string.h>
#include <sys/syscall.h>
#include <sys/uio.h>
#include <unistd.h>

static atomic_long calls;
static long fail_at;
static int is_begun;
static char kind;
static const char *mark;
static size_t read_most = -1;
static size_t write_most = -1;

static void *(*next_malloc)(size_t);
static void *(*next_calloc)(size_t, size_t);
static void *(*next_realloc)(void *, size_t);
static void *(*next_aligned)(size_t, size_t);
static int (*next_posix)(void **, size_t, size_t);

/* The number of this name, or the greatest one. */
static size_t most_of(const char *name) {
    const char *number = getenv(name);
    return number ? strtoul(number, NULL, 10) : (size_t)-1;
}

__attribute__((constructor)) static void begin(void) {
    const char *word = getenv("FAIL_KIND");
    const char *number = getenv("FAIL_AT");
    next_malloc = dlsym(RTLD_NEXT, "malloc");
    next_calloc = dlsym(RTLD_NEXT, "calloc");
    next_realloc = dlsym(RTLD_NEXT, "realloc");
    next_aligned = dlsym(RTLD_NEXT, "aligned_alloc");
    next_posix = dlsym(RTLD_NEXT, "posix_memalign");
    mark = getenv("FAIL_MARK");
    kind = word ? word[0] : 0;
    fail_at = number ? atol(number) : 0;
    read_most = most_of("READ_MOST");
    write_most = most_of("WRITE_MOST");
    is_begun = 1;
}

/* Whether this call is the one that fails. */
static int fails(char of) {
    if (!is_begun || kind != of || atomic_fetch_add(&calls, 1) + 1 != fail_at)
        return 0;
    long fd = syscall(SYS_openat, AT_FDCWD, mark, O_CREAT | O_WRONLY, 0600);
    if (fd >= 0)
        syscall(SYS_close, fd);
    return 1;
}

/* What is asked for before `begin` has run is the loader's. */
static char early[65536];
static size_t early_used;

static void *early_room(size_t size) {
    size_t start = (early_used + 63) & ~(size_t)63;
    if (start + size > sizeof early)
        return NULL;
    early_used = start + size;
    return early + start;
}

void *malloc(size_t size) {
    if (!next_malloc)
        return early_room(size);
    return fails('m') ? (errno = ENOMEM, NULL) : next_malloc(size);
}

void *calloc(size_t count, size_t size) {
    if (!next_calloc)
        return early_room(count * size);
    return fails('m') ? (errno = ENOMEM, NULL) : next_calloc(count, size);
}

void *realloc(void *old, size_t size) {
    return fails('m') ? (errno = ENOMEM, NULL) : next_realloc(old, size);
}

void *aligned_alloc(size_t alignment, size_t size) {
    return fails('m') ? (errno = ENOMEM, NULL) : next_aligned(alignment, size);
}

int posix_memalign(void **place, size_t alignment, size_t size) {
    return fails('m') ? ENOMEM : next_posix(place, alignment, size);
}

static size_t least(size_t a, size_t b) { return a < b ? a : b; }

ssize_t read(int fd, void *bytes, size_t count) {
    if (fails('e'))
        return 0;
    return fails('r') ? (errno = EIO, -1) : syscall(SYS_read, fd, bytes, least(count, read_most));
}

ssize_t write(int fd, const void *bytes, size_t count) {
    return fails('w') ? (errno = EIO, -1) : syscall(SYS_write, fd, bytes, least(count, write_most));
}

/* Opens a file relative to a folder. */
static int opened(int folder, const char *name, int flags, mode_t mode) {
    return fails('o') ? (errno = EIO, -1) : syscall(SYS_openat, folder, name, flags, mode);
}

/* The permissions behind the flags of a call, where it has them. */
#define MODE_BEHIND(flags) ({ \
    mode_t mode = 0; \
    va_list words; \
    va_start(words, flags); \
    if ((flags) & O_CREAT) \
        mode = va_arg(words, mode_t); \
    va_end(words); \
    mode; \
})

int open(const char *name, int flags, ...) { return opened(AT_FDCWD, name, flags, MODE_BEHIND(flags)); }

int open64(const char *name, int flags, ...) { return opened(AT_FDCWD, name, flags, MODE_BEHIND(flags)); }

int openat(int folder, const char *name, int flags, ...) { return opened(folder, name, flags, MODE_BEHIND(flags)); }

int openat64(int folder, const char *name, int flags, ...) { return opened(folder, name, flags, MODE_BEHIND(flags)); }
