/* Loaded in front of the C library: reads that give at most GIVES bytes, the first READS of them, and writes that take
   at most TAKES bytes, the first WRITES of them; those behind fail. What isn't set is without a limit. At the end the
   numbers of reads and of writes go to the file that COUNTED names. */
#define _GNU_SOURCE
#include <dlfcn.h>
#include <errno.h>
#include <limits.h>
#include <stdio.h>
#include <stdlib.h>
#include <unistd.h>

static unsigned long reads, writes;

static unsigned long limit(const char *name) {
    const char *number = getenv(name);
    return number ? strtoul(number, NULL, 10) : ULONG_MAX;
}

static size_t least(size_t size, size_t most) {
    return size < most ? size : most;
}

static ssize_t failure(void) {
    errno = EIO;
    return -1;
}

ssize_t read(int port, void *bytes, size_t size) {
    static ssize_t (*next)(int, void *, size_t);
    if (!next) *(void **)&next = dlsym(RTLD_NEXT, "read");
    return ++reads > limit("READS") ? failure() : next(port, bytes, least(size, limit("GIVES")));
}

ssize_t write(int port, const void *bytes, size_t size) {
    static ssize_t (*next)(int, const void *, size_t);
    if (!next) *(void **)&next = dlsym(RTLD_NEXT, "write");
    return ++writes > limit("WRITES") ? failure() : next(port, bytes, least(size, limit("TAKES")));
}

ssize_t __write(int port, const void *bytes, size_t size) {
    return write(port, bytes, size);
}

__attribute__((destructor)) static void end(void) {
    const char *name = getenv("COUNTED");
    unsigned long counts[] = {reads, writes};
    FILE *file = name ? fopen(name, "w") : NULL;
    if (file) {
        fprintf(file, "%lu %lu\n", counts[0], counts[1]);
        fclose(file);
    }
}
