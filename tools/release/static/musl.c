// Functions that the static program calls and that musl lacks or has only in a slow form. Linked with --wrap=main.
#define _GNU_SOURCE
#include <elf.h>
#include <signal.h>
#include <stddef.h>
#include <stdint.h>
#include <string.h>
#include <sys/mman.h>
#include <sys/syscall.h>
#include <unistd.h>

// The toolchain stores the arguments in a constructor, to which glibc passes them. musl passes them to main alone.
static size_t word_count;
static char **words;
int __real_main(void);

enum { PAGE = 4096 };

// A run uses at least 112 KiB of the stack. Mapping these pages in one call is faster than mapping each at its first
// write. If the kernel cannot do that, the pages are mapped as usual.
static void map_stack(void) {
    enum { PAGES = 28, POPULATE_WRITE = 23 }; // an advice of Linux 5.14, which musl's headers lack
    char here;
    uintptr_t first = (uintptr_t)&here / PAGE * PAGE - (PAGES - 1) * PAGE;
    madvise((void *)first, PAGES * PAGE, POPULATE_WRITE);
}

// The tables of addresses, which only the start writes, are read-only from then on. glibc does this for a program with
// the header GNU_RELRO, musl only for a dynamic one.
extern const char __ehdr_start[] __attribute__((visibility("hidden")));

static void protect_tables(void) {
    const Elf64_Ehdr *file = (const Elf64_Ehdr *)__ehdr_start;
    const Elf64_Phdr *part = (const Elf64_Phdr *)(__ehdr_start + file->e_phoff);
    for (int i = 0; i < file->e_phnum; i++) {
        if (part[i].p_type != PT_GNU_RELRO) continue;
        size_t first = part[i].p_vaddr & -(size_t)PAGE, end = (part[i].p_vaddr + part[i].p_memsz) & -(size_t)PAGE;
        mprotect((char *)__ehdr_start + first, end - first, PROT_READ);
    }
}

int __wrap_main(int count, char **arguments) {
    word_count = (size_t)count;
    words = arguments;
    protect_tables();
    map_stack();
    return __real_main();
}

size_t rattle_arg_count(void) { return word_count; }

// The length of a text, 16 bytes at a time. Aligned reads stay in the pages of the text, even if they go past its end.
static size_t length_of(const char *text) {
    typedef char bytes __attribute__((vector_size(16), may_alias));
    unsigned before = (uintptr_t)text % sizeof(bytes);
    const bytes *part = (const bytes *)(text - before);
    unsigned zeros = (unsigned)__builtin_ia32_pmovmskb128(*part == 0) >> before << before;
    while (zeros == 0) zeros = (unsigned)__builtin_ia32_pmovmskb128(*++part == 0);
    return (size_t)((const char *)part - text) + (unsigned)__builtin_ctz(zeros);
}

// Copies a text without its final zero and returns its length, -2 if it is too long.
static ssize_t copy_text(const char *text, char *to, size_t room) {
    size_t length = length_of(text);
    if (length > room) return -2;
    memcpy(to, text, length);
    return (ssize_t)length;
}

// Copies word i, and returns -1 if there is no such word.
ssize_t rattle_arg(size_t i, char *to, size_t room) {
    return i < word_count ? copy_text(words[i], to, room) : -1;
}

// Copies variable i, and returns -1 if there is no such variable. The toolchain's function passes over all variables
// before it each time. This one begins where the last call ended, since the program does not change its environment.
ssize_t rattle_env_at(size_t i, char *to, size_t room) {
    static size_t last;
    if (environ == NULL) return -1;
    if (i < last) last = 0;
    while (last < i && environ[last] != NULL) last++;
    return environ[last] != NULL ? copy_text(environ[last], to, room) : -1;
}

// The features of the processor, as glibc reports them by leaves of cpuid. A program is built for x86-64-v2 and first
// checks for its features. Only these are reported as active; others would need support of the system too.
struct features {
    unsigned registers[4], active[4]; // eax, ebx, ecx, edx
};

enum { BASIC = 0, EXTENDED = 2 }; // leaves as glibc numbers them
enum { BASIC_OF_V2 = 1 << 0 | 1 << 9 | 1 << 13 | 1 << 19 | 1 << 20 | 1 << 23 }; // SSE3 .. SSE4.2, CX16, POPCNT
enum { EXTENDED_OF_V2 = 1 << 0 };                                               // LAHF

const struct features *__x86_get_cpuid_feature_leaf(unsigned leaf) {
    static struct features leaves[EXTENDED + 1];
    static const struct features none;
    if (leaf != BASIC && leaf != EXTENDED) return &none;
    unsigned *r = leaves[leaf].registers;
    __asm__("cpuid"
            : "=a"(r[0]), "=b"(r[1]), "=c"(r[2]), "=d"(r[3])
            : "a"(leaf == BASIC ? 1 : 0x80000001), "c"(0));
    leaves[leaf].active[2] = r[2] & (leaf == BASIC ? BASIC_OF_V2 : EXTENDED_OF_V2);
    return &leaves[leaf];
}

ssize_t __write(int file, const void *from, size_t count) { return write(file, from, count); }

typedef void (*handler)(int);

handler __sysv_signal(int number, handler to) {
    struct sigaction action = {.sa_handler = to, .sa_flags = SA_RESETHAND | SA_NODEFER}, old;
    return sigaction(number, &action, &old) == 0 ? old.sa_handler : SIG_ERR;
}

int statx(int folder, const char *name, int flags, unsigned mask, void *to) {
    return (int)syscall(SYS_statx, folder, name, flags, mask, to);
}

// musl copies and fills with string instructions, which are slow to start. These functions use 16 bytes at a time; the
// first and the last 16 may overlap. Up to 64 bytes, all are read before the first is written.
typedef long long wide __attribute__((vector_size(16), aligned(1), may_alias));
typedef uint64_t eight __attribute__((aligned(1), may_alias));
typedef uint32_t four __attribute__((aligned(1), may_alias));
typedef uint16_t two __attribute__((aligned(1), may_alias));

#define COPY_ENDS(type)                                                                                                \
    do {                                                                                                               \
        type first = *(const type *)from, last = *(const type *)(from + n - sizeof(type));                             \
        *(type *)to = first;                                                                                           \
        *(type *)(to + n - sizeof(type)) = last;                                                                       \
    } while (0)

static inline void copy_to_15(char *to, const char *from, size_t n) {
    if (n >= 8) COPY_ENDS(eight);
    else if (n >= 4) COPY_ENDS(four);
    else if (n >= 2) COPY_ENDS(two);
    else if (n == 1) *to = *from;
}

static inline void copy_to_64(char *to, const char *from, size_t n) {
    if (n > 32) {
        wide first[2] = {((const wide *)from)[0], ((const wide *)from)[1]};
        wide last[2] = {((const wide *)(from + n - 32))[0], ((const wide *)(from + n - 32))[1]};
        ((wide *)to)[0] = first[0], ((wide *)to)[1] = first[1];
        ((wide *)(to + n - 32))[0] = last[0], ((wide *)(to + n - 32))[1] = last[1];
    } else {
        COPY_ENDS(wide);
    }
}

static void copy_64(char *to, const char *from) {
    const wide *source = (const wide *)from;
    wide first[4] = {source[0], source[1], source[2], source[3]}, *target = (wide *)to;
    target[0] = first[0], target[1] = first[1], target[2] = first[2], target[3] = first[3];
}

// Copies more than 64 bytes, if none is read after it is written. The last 64 are read first.
static void copy_up(char *to, const char *from, size_t n) {
    const wide *source = (const wide *)(from + n - 64);
    wide last[4] = {source[0], source[1], source[2], source[3]}, *target = (wide *)(to + n - 64);
    for (; n > 256; n -= 256, to += 256, from += 256) {
        copy_64(to, from), copy_64(to + 64, from + 64), copy_64(to + 128, from + 128), copy_64(to + 192, from + 192);
    }
    for (; n > 64; n -= 64, to += 64, from += 64) copy_64(to, from);
    target[0] = last[0], target[1] = last[1], target[2] = last[2], target[3] = last[3];
}

// Copies more than 64 bytes from the end to the start. The first 64 are read first.
static void copy_down(char *to, const char *from, size_t n) {
    const wide *source = (const wide *)from;
    wide first[4] = {source[0], source[1], source[2], source[3]}, *target = (wide *)to;
    for (; n > 64; n -= 64) copy_64(to + n - 64, from + n - 64);
    target[0] = first[0], target[1] = first[1], target[2] = first[2], target[3] = first[3];
}

void *memmove(void *target, const void *source, size_t n) {
    char *to = target;
    const char *from = source;
    if (n < 16) copy_to_15(to, from, n); // most copies are of names and of numbers
    else if (n <= 64) copy_to_64(to, from, n);
    else if ((uintptr_t)to - (uintptr_t)from >= n) copy_up(to, from, n);
    else copy_down(to, from, n);
    return target;
}

void *memcpy(void *restrict target, const void *restrict source, size_t n) { return memmove(target, source, n); }

void *memset(void *target, int value, size_t n) {
    char *to = target;
    uint64_t eights = 0x0101010101010101u * (unsigned char)value;
    wide wides = {(long long)eights, (long long)eights};
    if (n >= 16) {
        for (size_t i = 0; i < n - 16; i += 16) *(wide *)(to + i) = wides;
        *(wide *)(to + n - 16) = wides;
    } else if (n >= 8) {
        *(eight *)to = eights;
        *(eight *)(to + n - 8) = eights;
    } else if (n >= 4) {
        *(four *)to = (uint32_t)eights;
        *(four *)(to + n - 4) = (uint32_t)eights;
    } else {
        for (size_t i = 0; i < n; i++) ((volatile char *)to)[i] = (char)value;
    }
    return target;
}
