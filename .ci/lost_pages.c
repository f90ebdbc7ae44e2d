/* Loaded before the C library: what a disk keeps of the file LOG whose syncs may be refused, as Linux has it. IMAGE is what a power failure
   leaves. A sync copies there what was written since this process began, or since its last sync that was refused. The sync of the number
   REFUSES is refused (0: none): what was written before stays readable, and no later sync copies it. */
#define _GNU_SOURCE
#include <dlfcn.h>
#include <errno.h>
#include <fcntl.h>
#include <stdlib.h>
#include <sys/stat.h>
#include <unistd.h>

enum { WRITES = 4096 };

static struct { off_t at; size_t count; } fresh[WRITES];
static int writes, refuses, syncs;

static int is_log(int file) {
    struct stat own, named;
    return fstat(file, &own) == 0 && stat(getenv("LOG"), &named) == 0 && own.st_ino == named.st_ino && own.st_dev == named.st_dev;
}

__attribute__((constructor)) static void begin(void) {
    refuses = atoi(getenv("REFUSES"));
}

ssize_t pwrite(int file, const void *bytes, size_t count, off_t at) {
    ssize_t (*next)(int, const void *, size_t, off_t) = (ssize_t (*)(int, const void *, size_t, off_t))dlsym(RTLD_NEXT, "pwrite");
    ssize_t wrote = next(file, bytes, count, at);
    if (wrote > 0 && writes < WRITES && is_log(file)) {
        fresh[writes].at = at;
        fresh[writes++].count = (size_t)wrote;
    }
    return wrote;
}

static void keep(int file) {
    int image = open(getenv("IMAGE"), O_WRONLY | O_CREAT, 0644);
    ssize_t (*write_to)(int, const void *, size_t, off_t) = (ssize_t (*)(int, const void *, size_t, off_t))dlsym(RTLD_NEXT, "pwrite");
    for (int which = 0; which < writes; which++) {
        char *bytes = malloc(fresh[which].count);
        if (bytes == NULL || pread(file, bytes, fresh[which].count, fresh[which].at) != (ssize_t)fresh[which].count
            || write_to(image, bytes, fresh[which].count, fresh[which].at) != (ssize_t)fresh[which].count)
            abort();
        free(bytes);
    }
    close(image);
}

int fsync(int file) {
    int (*next)(int) = (int (*)(int))dlsym(RTLD_NEXT, "fsync");
    if (!is_log(file))
        return next(file);
    if (++syncs == refuses) {
        writes = 0;
        errno = EIO;
        return -1;
    }
    keep(file);
    writes = 0;
    return 0;
}
