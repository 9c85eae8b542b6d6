/* Put before the C library by LD_PRELOAD: lets the call of a given number fail, or gives and takes a few bytes a call.
   Whenever it refuses a call it writes a byte to the descriptor MARK. Used by tools/hostile.py. */
#define _GNU_SOURCE
#include <errno.h>
#include <stdlib.h>
#include <sys/syscall.h>
#include <unistd.h>

extern void *__libc_malloc(size_t);
extern void *__libc_calloc(size_t, size_t);
extern void *__libc_realloc(void *, size_t);
extern void *__libc_memalign(size_t, size_t);

static long number(const char *name) {
    const char *text = getenv(name);
    return text ? atol(text) : 0;
}

/* Whether this call is the one that is to fail. */
static int refused(const char *name, long *calls) {
    if (++*calls != number(name)) return 0;
    syscall(SYS_write, (int)number("MARK"), "x", (size_t)1);
    return 1;
}

static long requests, reads, writes;

static int no_memory(void) {
    if (!refused("REFUSE_MEMORY", &requests)) return 0;
    errno = ENOMEM;
    return 1;
}

void *malloc(size_t size) { return no_memory() ? NULL : __libc_malloc(size); }
void *calloc(size_t count, size_t size) { return no_memory() ? NULL : __libc_calloc(count, size); }
void *realloc(void *old, size_t size) { return no_memory() ? NULL : __libc_realloc(old, size); }
void *aligned_alloc(size_t align, size_t size) { return no_memory() ? NULL : __libc_memalign(align, size); }
int posix_memalign(void **out, size_t align, size_t size) {
    if (no_memory()) return ENOMEM;
    *out = __libc_memalign(align, size);
    return *out ? 0 : ENOMEM;
}

static size_t piece(const char *name, size_t size) {
    size_t most = (size_t)number(name);
    return most && most < size ? most : size;
}

ssize_t read(int from, void *into, size_t size) {
    if (from == 0 && refused("FAIL_READ", &reads)) { errno = EIO; return -1; }
    return syscall(SYS_read, from, into, from == 0 ? piece("READ_PIECE", size) : size);
}

ssize_t write(int to, const void *bytes, size_t size) {
    if (to == 1 && refused("FAIL_WRITE", &writes)) { errno = EIO; return -1; }
    return syscall(SYS_write, to, bytes, to == 1 ? piece("WRITE_PIECE", size) : size);
}
