// Refuses allocations of the static program, as tools/checks/refuse.c does for the dynamic one. Allocations are
// numbered from 1. The allocation with the number REFUSED is refused, and if LATER is set, all later ones too. For each
// refusal a byte is written to descriptor 9. Linked with --wrap=rattle_alloc and --wrap=rattle_realloc.
#include <stdbool.h>
#include <stddef.h>
#include <stdlib.h>
#include <unistd.h>

struct allocation {
    bool found;
    void *block;
};

struct allocation __real_rattle_alloc(size_t bytes, size_t align);
struct allocation __real_rattle_realloc(void *old, size_t kept, size_t bytes, size_t align);

static struct allocation none(void) {
    static char nothing;
    return (struct allocation){false, &nothing};
}

static bool is_refused(void) {
    static unsigned long number;
    const char *first = getenv("REFUSED");
    unsigned long at = first == NULL ? 0 : strtoul(first, NULL, 10);
    number += 1;
    if (at == 0 || (getenv("LATER") != NULL ? number < at : number != at)) return false;
    if (write(9, ".", 1) != 1) abort();
    return true;
}

struct allocation __wrap_rattle_alloc(size_t bytes, size_t align) {
    return is_refused() ? none() : __real_rattle_alloc(bytes, align);
}

struct allocation __wrap_rattle_realloc(void *old, size_t kept, size_t bytes, size_t align) {
    return is_refused() ? none() : __real_rattle_realloc(old, kept, bytes, align);
}
