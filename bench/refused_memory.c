/* Counts the requests for memory of a program, and refuses the one whose number is in REFUSE, or with LASTING also all after it.
   Preloaded by refused_memory.py. The count is written to the file that COUNT_TO names. */
#include <errno.h>
#include <stdio.h>
#include <stdlib.h>

extern void *__libc_malloc(size_t);
extern void *__libc_calloc(size_t, size_t);
extern void *__libc_realloc(void *, size_t);
extern void *__libc_memalign(size_t, size_t);

static long requests;

static int is_refused(void) {
    static long refused = -1, lasting;
    if (refused < 0) {
        const char *number = getenv("REFUSE");
        refused = number ? atol(number) : 0;
        lasting = getenv("LASTING") != NULL;
    }
    requests++;
    return requests == refused || (lasting && refused && requests > refused);
}

static void *refuse(void) {
    errno = ENOMEM;
    return NULL;
}

void *malloc(size_t size) { return is_refused() ? refuse() : __libc_malloc(size); }

void *calloc(size_t count, size_t size) { return is_refused() ? refuse() : __libc_calloc(count, size); }

void *realloc(void *block, size_t size) { return is_refused() ? refuse() : __libc_realloc(block, size); }

void *aligned_alloc(size_t alignment, size_t size) { return is_refused() ? refuse() : __libc_memalign(alignment, size); }

int posix_memalign(void **block, size_t alignment, size_t size) {
    if (is_refused()) return ENOMEM;
    *block = __libc_memalign(alignment, size);
    return *block ? 0 : ENOMEM;
}

__attribute__((destructor)) static void report(void) {
    const char *name = getenv("COUNT_TO");
    long count = requests; /* before those of the file */
    FILE *file = name ? fopen(name, "w") : NULL;
    if (file) { fprintf(file, "%ld\n", count); fclose(file); }
}
