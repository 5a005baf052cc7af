/* Loaded in front of the C library: refuses the one request for memory whose number, from 1, stands in REFUSED, and writes the
   number of all requests to the file that COUNTED names. The program asks by malloc and realloc alone. */
#define _GNU_SOURCE
#include <dlfcn.h>
#include <errno.h>
#include <stdio.h>
#include <stdlib.h>

static unsigned long requests;
static unsigned long refused;
static int begun;

__attribute__((constructor)) static void begin(void) {
    const char *number = getenv("REFUSED");
    refused = number ? strtoul(number, NULL, 10) : 0;
    begun = 1;
}

static int is_refused(void) {
    if (!begun || ++requests != refused) return 0;
    errno = ENOMEM;
    return 1;
}

void *malloc(size_t size) {
    static void *(*next)(size_t);
    if (!next) *(void **)&next = dlsym(RTLD_NEXT, "malloc");
    return is_refused() ? NULL : next(size);
}

void *realloc(void *memory, size_t size) {
    static void *(*next)(void *, size_t);
    if (!next) *(void **)&next = dlsym(RTLD_NEXT, "realloc");
    return is_refused() ? NULL : next(memory, size);
}

__attribute__((destructor)) static void end(void) {
    const char *name = getenv("COUNTED");
    unsigned long count = requests;
    begun = 0;
    FILE *file = name ? fopen(name, "w") : NULL;
    if (file) {
        fprintf(file, "%lu\n", count);
        fclose(file);
    }
}
