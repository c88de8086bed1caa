// Refuses memory to a program, as a library that is loaded before it (LD_PRELOAD): of the requests for memory, counted from 1, that with
// the number in REFUSE_AT is refused, and where REFUSE_ON is set each later one too.
#include <errno.h>
#include <stdatomic.h>
#include <stddef.h>
#include <stdlib.h>

void *__libc_malloc(size_t size);
void *__libc_calloc(size_t count, size_t size);
void *__libc_realloc(void *old, size_t size);
void *__libc_memalign(size_t align, size_t size);

static atomic_long requests;
static long refused_at;
static int refuses_on;

__attribute__((constructor)) static void begin(void) {
    const char *at = getenv("REFUSE_AT");
    atomic_store(&requests, 0);
    refused_at = at == NULL ? 0 : atol(at);
    refuses_on = getenv("REFUSE_ON") != NULL;
}

static int is_refused(void) {
    if (refused_at == 0) return 0;
    long number = atomic_fetch_add(&requests, 1) + 1;
    if (number != refused_at && !(refuses_on && number > refused_at)) return 0;
    errno = ENOMEM;
    return 1;
}

void *malloc(size_t size) { return is_refused() ? NULL : __libc_malloc(size); }
void *calloc(size_t count, size_t size) { return is_refused() ? NULL : __libc_calloc(count, size); }
void *realloc(void *old, size_t size) { return is_refused() ? NULL : __libc_realloc(old, size); }
void *memalign(size_t align, size_t size) { return is_refused() ? NULL : __libc_memalign(align, size); }
void *aligned_alloc(size_t align, size_t size) { return memalign(align, size); }

int posix_memalign(void **place, size_t align, size_t size) {
    void *memory = memalign(align, size);
    if (memory == NULL) return ENOMEM;
    *place = memory;
    return 0;
}
