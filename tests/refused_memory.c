/* Loaded before the C library (LD_PRELOAD): it refuses the allocation of number REFUSED, counted from 1, and says so on standard error. */
#include <errno.h>
#include <stddef.h>
#include <stdlib.h>
#include <unistd.h>

extern void *__libc_malloc(size_t size);
extern void *__libc_realloc(void *old, size_t size);

static long refused = -1;
static long count;

static int is_refused(void) {
    if (refused < 0) {
        const char *number = getenv("REFUSED");
        refused = number ? atol(number) : 0;
    }
    if (++count != refused)
        return 0;
    (void)!write(2, "refused\n", 8);
    errno = ENOMEM;
    return 1;
}

void *malloc(size_t size) { return is_refused() ? NULL : __libc_malloc(size); }

void *realloc(void *old, size_t size) { return is_refused() ? NULL : __libc_realloc(old, size); }
