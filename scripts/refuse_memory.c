/* Put before a program (LD_PRELOAD), it refuses one of its requests of memory: the one whose number, counted from 1,
   the variable REFUSED has. How many there were so far is kept in the file that the variable COUNTED names. */
#include <errno.h>
#include <fcntl.h>
#include <stddef.h>
#include <stdlib.h>
#include <unistd.h>

extern void *__libc_malloc(size_t size);
extern void *__libc_calloc(size_t number, size_t size);
extern void *__libc_realloc(void *block, size_t size);
extern void *__libc_memalign(size_t alignment, size_t size);

static long asked, refused;
static int counts = -1;

__attribute__((constructor)) static void begin(void) {
    const char *number = getenv("REFUSED"), *file = getenv("COUNTED");
    refused = number ? atol(number) : 0;
    counts = file ? open(file, O_WRONLY | O_CREAT, 0600) : -1;
    asked = 0;
}

/* Whether this request is given what it asks for. */
static int is_given(void) {
    asked++;
    if (counts >= 0 && pwrite(counts, &asked, sizeof asked, 0) < 0) abort();
    if (asked != refused) return 1;
    errno = ENOMEM;
    return 0;
}

void *malloc(size_t size) { return is_given() ? __libc_malloc(size) : NULL; }
void *calloc(size_t number, size_t size) { return is_given() ? __libc_calloc(number, size) : NULL; }
void *realloc(void *block, size_t size) { return is_given() ? __libc_realloc(block, size) : NULL; }
void *aligned_alloc(size_t alignment, size_t size) { return is_given() ? __libc_memalign(alignment, size) : NULL; }

int posix_memalign(void **block, size_t alignment, size_t size) {
    if (!is_given()) return ENOMEM;
    *block = __libc_memalign(alignment, size);
    return *block ? 0 : ENOMEM;
}
