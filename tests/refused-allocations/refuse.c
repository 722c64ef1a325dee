// Loaded before the C library (LD_PRELOAD), it refuses allocations: where REFUSE is N, the N-th one, and where REFUSE_ON is set too all
// that come after it. At each refused one it writes a byte to descriptor 9.

#include <errno.h>
#include <stdlib.h>
#include <unistd.h>

extern void *__libc_malloc(size_t size);
extern void *__libc_calloc(size_t count, size_t size);
extern void *__libc_realloc(void *from, size_t size);
extern void *__libc_memalign(size_t alignment, size_t size);

static long first = -1;
static int goes_on;
static long count;

__attribute__((constructor)) static void begin(void) {
    const char *number = getenv("REFUSE");
    first = number ? atol(number) : 0;
    goes_on = getenv("REFUSE_ON") != NULL;
}

static int is_refused(void) {
    if (first <= 0)
        return 0;
    count += 1;
    if (count != first && !(goes_on && count > first))
        return 0;
    errno = ENOMEM;
    return write(9, "x", 1) >= 0;
}

void *malloc(size_t size) { return is_refused() ? NULL : __libc_malloc(size); }

void *calloc(size_t number, size_t size) { return is_refused() ? NULL : __libc_calloc(number, size); }

void *realloc(void *from, size_t size) { return is_refused() ? NULL : __libc_realloc(from, size); }

void *memalign(size_t alignment, size_t size) { return is_refused() ? NULL : __libc_memalign(alignment, size); }

void *aligned_alloc(size_t alignment, size_t size) { return memalign(alignment, size); }

int posix_memalign(void **place, size_t alignment, size_t size) {
    void *found = memalign(alignment, size);
    if (found == NULL)
        return ENOMEM;
    *place = found;
    return 0;
}
