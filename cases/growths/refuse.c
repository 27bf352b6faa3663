/* Refuses one growth of memory of the program into which it is loaded, and counts them: that whose number stands in REFUSED, from 1 on; none where it is 0.
   The count goes into the file that COUNTED names. A block that becomes smaller is no growth. It stands on glibc, whose own names for these calls it hands them
   on to. */

#include <errno.h>
#include <malloc.h>
#include <stdio.h>
#include <stdlib.h>

extern void *__libc_malloc(size_t size);
extern void *__libc_realloc(void *block, size_t size);

static unsigned long grown, refused;

static int is_refused(void) {
    if (++grown != refused) return 0;
    errno = ENOMEM;
    return 1;
}

void *malloc(size_t size) { return is_refused() ? NULL : __libc_malloc(size); }

void *realloc(void *block, size_t size) {
    int grows = !block || size > malloc_usable_size(block);
    return grows && is_refused() ? NULL : __libc_realloc(block, size);
}

__attribute__((constructor)) static void begin(void) {
    const char *number = getenv("REFUSED");
    refused = number ? strtoul(number, NULL, 10) : 0;
    grown = 0;
}

__attribute__((destructor)) static void end(void) {
    const char *path = getenv("COUNTED");
    unsigned long found = grown;
    refused = 0;
    FILE *file = path ? fopen(path, "w") : NULL;
    if (!file) return;
    fprintf(file, "%lu\n", found);
    fclose(file);
}
