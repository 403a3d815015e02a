/* Loaded before the C library by LD_PRELOAD: refuses the request for memory number REFUSE_AT, counted from 1.
 * When it is refused, REFUSE_NOTE is made, an empty file. With REFUSE_ON every later request is refused too.
 * The loader's own requests come before the first one that is counted. */
#define _GNU_SOURCE
#include <dlfcn.h>
#include <errno.h>
#include <fcntl.h>
#include <stdlib.h>
#include <string.h>
#include <unistd.h>

extern void *__libc_malloc(size_t size);
extern void *__libc_calloc(size_t count, size_t size);
extern void *__libc_realloc(void *block, size_t size);
extern void *__libc_memalign(size_t alignment, size_t size);

static unsigned long asked;
static unsigned long refused_at;
static int goes_on;
static int is_ready;

__attribute__((constructor)) static void begin(void) {
    const char *at = getenv("REFUSE_AT");
    refused_at = at ? strtoul(at, 0, 10) : 0;
    goes_on = getenv("REFUSE_ON") != 0;
    is_ready = 1;
}

static int is_refused(void) {
    if (!is_ready || refused_at == 0)
        return 0;
    asked++;
    if (asked != refused_at && !(goes_on && asked > refused_at))
        return 0;
    const char *note = getenv("REFUSE_NOTE");
    int file = note ? open(note, O_CREAT | O_WRONLY, 0600) : -1;
    if (file >= 0)
        close(file);
    errno = ENOMEM;
    return 1;
}

void *malloc(size_t size) { return is_refused() ? 0 : __libc_malloc(size); }

void *calloc(size_t count, size_t size) { return is_refused() ? 0 : __libc_calloc(count, size); }

void *realloc(void *block, size_t size) { return is_refused() ? 0 : __libc_realloc(block, size); }

void *aligned_alloc(size_t alignment, size_t size) { return is_refused() ? 0 : __libc_memalign(alignment, size); }

void *memalign(size_t alignment, size_t size) { return is_refused() ? 0 : __libc_memalign(alignment, size); }

int posix_memalign(void **block, size_t alignment, size_t size) {
    if (is_refused())
        return ENOMEM;
    *block = __libc_memalign(alignment, size);
    return *block ? 0 : ENOMEM;
}
