/* Loaded before the C library: the request for memory that REFUSED counts to is refused. A byte on the descriptor TELLS says that it came. */
#include <stddef.h>
#include <stdlib.h>
#include <unistd.h>

void *__libc_malloc(size_t);
void *__libc_realloc(void *, size_t);

static long left;
static int tells;

__attribute__((constructor)) static void begin(void) {
    left = atol(getenv("REFUSED"));
    tells = atoi(getenv("TELLS"));
}

static int is_refused(void) {
    return left > 0 && --left == 0 && write(tells, "", 1) == 1;
}

void *malloc(size_t size) {
    return is_refused() ? NULL : __libc_malloc(size);
}

void *realloc(void *old, size_t size) {
    return is_refused() ? NULL : __libc_realloc(old, size);
}
