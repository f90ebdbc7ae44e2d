/* The heap of a library for a processor for which the kit has no such file: what the kit's own asks of malloc, realloc and free. */
#include <stdbool.h>
#include <stddef.h>
#include <stdlib.h>

struct tried {
    bool ok;
    void *p;
};

/* where a request was refused, a pointer is answered that nobody reads from */
static char nowhere;

static struct tried tried(void *p) {
    return (struct tried){p != NULL, p != NULL ? p : &nowhere};
}

/* a request for no bytes is one for as many as its alignment says */
struct tried rattle_alloc(size_t count, size_t alignment) {
    return tried(malloc(count ? count : alignment));
}

struct tried rattle_realloc(void *p, size_t kept, size_t count, size_t alignment) {
    (void)kept;
    return tried(realloc(p, count ? count : alignment));
}

void rattle_dealloc(void *p) {
    free(p);
}
