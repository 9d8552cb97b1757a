/* Loaded before the C library (LD_PRELOAD): of the memory that is asked for between the lines `begin` and `end`, the first time that a program writes them, it
   refuses the request of number REFUSED, counted from 1, or each from that on where ONWARD is set, and says so on standard error. */
#define _GNU_SOURCE
#include <errno.h>
#include <stddef.h>
#include <stdlib.h>
#include <string.h>
#include <sys/syscall.h>
#include <unistd.h>

extern void *__libc_malloc(size_t size);
extern void *__libc_realloc(void *old, size_t size);

static long refused;
static int is_onward;
static long count;
static enum { BEFORE, BETWEEN, BEHIND } place;

static int is_refused(void) {
    if (place != BETWEEN)
        return 0;
    ++count;
    if (count != refused && !(is_onward && refused && count > refused))
        return 0;
    if (count == refused)
        syscall(SYS_write, 2, "refused\n", 8);
    errno = ENOMEM;
    return 1;
}

ssize_t write(int file, const void *bytes, size_t size) {
    ssize_t written = syscall(SYS_write, file, bytes, size);
    if (place == BEFORE && size == 6 && !memcmp(bytes, "begin\n", 6)) {
        const char *number = getenv("REFUSED");
        refused = number ? atol(number) : 0;
        is_onward = getenv("ONWARD") != NULL;
        place = BETWEEN;
    } else if (place == BETWEEN && size == 4 && !memcmp(bytes, "end\n", 4)) {
        place = BEHIND;
    }
    return written;
}

void *malloc(size_t size) { return is_refused() ? NULL : __libc_malloc(size); }

void *realloc(void *old, size_t size) { return is_refused() ? NULL : __libc_realloc(old, size); }
