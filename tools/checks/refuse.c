// Refuses allocations of a program; LD_PRELOAD loads it. Allocations are numbered from 1. The allocation with the
// number REFUSED is refused, and if LATER is set, all later ones too. For each refusal a byte is written to descriptor
// 9.
#include <errno.h>
#include <stddef.h>
#include <stdlib.h>
#include <unistd.h>

extern void *__libc_malloc(size_t), *__libc_calloc(size_t, size_t), *__libc_realloc(void *, size_t), *__libc_memalign(size_t, size_t);

static unsigned long at, number;
static int later;

__attribute__((constructor)) static void begin(void) {
    const char *refused = getenv("REFUSED");
    at = refused ? strtoul(refused, NULL, 10) : 0;
    later = getenv("LATER") != NULL;
}

static int is_refused(void) {
    if (at == 0) return 0;
    number += 1;
    if (later ? number < at : number != at) return 0;
    if (write(9, ".", 1) != 1) abort();
    errno = ENOMEM;
    return 1;
}

void *malloc(size_t size) { return is_refused() ? NULL : __libc_malloc(size); }
void *calloc(size_t count, size_t size) { return is_refused() ? NULL : __libc_calloc(count, size); }
void *realloc(void *old, size_t size) { return is_refused() ? NULL : __libc_realloc(old, size); }
void *memalign(size_t align, size_t size) { return is_refused() ? NULL : __libc_memalign(align, size); }
void *aligned_alloc(size_t align, size_t size) { return memalign(align, size); }
int posix_memalign(void **place, size_t align, size_t size) {
    void *block = memalign(align, size);
    if (block == NULL) return ENOMEM;
    *place = block;
    return 0;
}
