/* Refuses one call of the C library that a program makes, for tools/refusals. It is loaded before the program:
 *
 *   LD_PRELOAD=refuse.so REFUSE=memory:3 program     the third call of malloc or realloc gives no memory
 *   LD_PRELOAD=refuse.so REFUSE=read:1 program       the first read fails
 *   LD_PRELOAD=refuse.so REFUSE=write:2 program      the second write fails, to whatever file
 *
 * Where the call was refused, one byte is written to file descriptor 9. */
#define _GNU_SOURCE
#include <dlfcn.h>
#include <errno.h>
#include <stdlib.h>
#include <string.h>
#include <sys/syscall.h>
#include <unistd.h>

static long memory_calls, read_calls, write_calls;

/* Whether the environment refuses this call of its kind. */
static int is_refused(const char *kind, long call) {
    const char *wanted = getenv("REFUSE");
    size_t length = strlen(kind);
    if (wanted == NULL || strncmp(wanted, kind, length) != 0 || wanted[length] != ':') return 0;
    if (strtol(wanted + length + 1, NULL, 10) != call) return 0;
    syscall(SYS_write, 9, "!", 1);
    return 1;
}

void *malloc(size_t size) {
    static void *(*next)(size_t);
    if (next == NULL) next = (void *(*)(size_t))dlsym(RTLD_NEXT, "malloc");
    if (!is_refused("memory", ++memory_calls)) return next(size);
    errno = ENOMEM;
    return NULL;
}

void *realloc(void *old, size_t size) {
    static void *(*next)(void *, size_t);
    if (next == NULL) next = (void *(*)(void *, size_t))dlsym(RTLD_NEXT, "realloc");
    if (!is_refused("memory", ++memory_calls)) return next(old, size);
    errno = ENOMEM;
    return NULL;
}

ssize_t read(int file, void *bytes, size_t size) {
    if (!is_refused("read", ++read_calls)) return syscall(SYS_read, file, bytes, size);
    errno = EIO;
    return -1;
}

ssize_t write(int file, const void *bytes, size_t size) {
    if (!is_refused("write", ++write_calls)) return syscall(SYS_write, file, bytes, size);
    errno = EIO;
    return -1;
}

ssize_t __write(int file, const void *bytes, size_t size) { return write(file, bytes, size); }
