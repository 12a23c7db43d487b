// heap_test SEED ROUNDS: makes, grows, shrinks and frees blocks in the heap of the static program. First in shapes that
// a program repeats: the memory of the heap stays near the bytes in use, and long blocks call the system a few times.
// Then ROUNDS random steps, with some requests to the system refused. Each block keeps its bytes and overlaps no other,
// and a refusal changes nothing. The heap takes at most three times the peak of the bytes in use, however long it runs,
// and requests one huge page. Linked with --wrap=mmap,--wrap=munmap,--wrap=mremap,--wrap=madvise.
#define _GNU_SOURCE
#include <assert.h>
#include <errno.h>
#include <stdbool.h>
#include <stdint.h>
#include <stdio.h>
#include <stdlib.h>
#include <string.h>
#include <sys/mman.h>

struct allocation {
    bool found;
    unsigned char *block;
};

struct allocation rattle_alloc(size_t size, size_t align);
struct allocation rattle_realloc(void *old, size_t kept, size_t size, size_t align);
void rattle_dealloc(void *old);

enum { BLOCKS = 4096 };

struct owned {
    unsigned char *block;
    size_t size;
    unsigned char seed; // the byte at i is seed + i
};

static struct owned owned[BLOCKS];
static uint64_t state;
static bool refusing;
static size_t refused, mapped, huge_pages, calls;

static uint64_t random_below(uint64_t bound) {
    state = state * 6364136223846793005u + 1442695040888963407u;
    return (state >> 33) % bound;
}

static bool is_refused(void) {
    bool now = refusing && random_below(2) == 0;
    calls += 1;
    refused += now;
    errno = now ? ENOMEM : 0;
    return now;
}

void *__real_mmap(void *at, size_t size, int protection, int flags, int file, off_t offset);
void *__real_mremap(void *at, size_t before, size_t size, int flags);
int __real_munmap(void *at, size_t size);

void *__wrap_mmap(void *at, size_t size, int protection, int flags, int file, off_t offset) {
    if (is_refused()) return MAP_FAILED;
    void *memory = __real_mmap(at, size, protection, flags, file, offset);
    if (memory != MAP_FAILED) mapped += size;
    return memory;
}

void *__wrap_mremap(void *at, size_t before, size_t size, int flags) {
    if (is_refused()) {
        if (random_below(2) == 0) errno = EFAULT; // as the system does if it does not take joined pages for one range
        return MAP_FAILED;
    }
    void *memory = __real_mremap(at, before, size, flags);
    if (memory != MAP_FAILED) mapped += size - before;
    return memory;
}

int __wrap_munmap(void *at, size_t size) {
    calls += 1;
    mapped -= size;
    return __real_munmap(at, size);
}

int __real_madvise(void *at, size_t size, int advice);

int __wrap_madvise(void *at, size_t size, int advice) {
    if (advice == MADV_HUGEPAGE) {
        huge_pages += 1;
        assert((uintptr_t)at % size == 0);
    }
    return is_refused() ? -1 : __real_madvise(at, size, advice);
}

// Sizes like those of a program: mostly a few bytes, and sometimes vectors of up to 400 kB.
static size_t random_size(void) {
    uint64_t kind = random_below(100);
    if (kind < 70) return random_below(64);
    if (kind < 90) return random_below(1100);
    return random_below(kind < 98 ? 40000 : 400000);
}

static void check(const struct owned *one, size_t size) {
    for (size_t i = 0; i < size; i++) assert(one->block[i] == (unsigned char)(one->seed + i));
}

static void take(struct owned *one, struct allocation allocation, size_t size) {
    assert((uintptr_t)allocation.block % 16 == 0);
    one->block = allocation.block;
    one->size = size;
    one->seed = (unsigned char)random_below(256);
    for (size_t i = 0; i < size; i++) one->block[i] = (unsigned char)(one->seed + i);
}

static void step(struct owned *one) {
    refusing = random_below(10) == 0;
    if (one->block == NULL) {
        size_t size = random_size();
        struct allocation allocation = rattle_alloc(size, 16);
        if (allocation.found) take(one, allocation, size);
        return;
    }
    check(one, one->size);
    if (random_below(2) == 0) {
        rattle_dealloc(one->block);
        one->block = NULL;
        return;
    }
    size_t size = random_size(), kept = size < one->size ? size : one->size;
    struct allocation allocation = rattle_realloc(one->block, kept, size, 16);
    if (allocation.found) one->block = allocation.block;
    check(one, allocation.found ? kept : one->size);
    if (allocation.found) take(one, allocation, size);
}

// A vector that grows from 8 bytes to a size by doubling.
static unsigned char *grown(size_t size) {
    struct allocation vector = rattle_alloc(8, 8);
    for (size_t length = 8; length < size;) {
        size_t longer = 2 * length < size ? 2 * length : size;
        assert(vector.found);
        vector = rattle_realloc(vector.block, length, longer, 8);
        length = longer;
    }
    assert(vector.found);
    return vector.block;
}

enum { VECTORS = 3, KEPT = 64, SLACK = 1 << 20 };

// Grows vectors of these sizes in turn, frees them, and keeps a small block, over and over. The memory that the heap
// takes for it may be twice the bytes in use, and some chunks.
static void repeat(size_t times, const size_t sizes[VECTORS]) {
    size_t before = mapped, in_use = 0;
    for (size_t i = 0; i < times; i++) {
        unsigned char *vectors[VECTORS];
        for (size_t j = 0; j < VECTORS; j++) vectors[j] = grown(sizes[(i + j) % VECTORS]);
        assert(rattle_alloc(KEPT, 16).found);
        for (size_t j = 0; j < VECTORS; j++) rattle_dealloc(vectors[j]);
    }
    for (size_t j = 0; j < VECTORS; j++) in_use += sizes[j];
    in_use += times * KEPT;
    printf("%zu times %zu, %zu and %zu bytes: %zu taken from the system for %zu in use\n", times, sizes[0], sizes[1],
        sizes[2], mapped - before, in_use);
    assert(mapped < before + 2 * in_use + SLACK);
}

// Long blocks call the system a few times in all.
static void repeat_long_blocks(void) {
    const size_t sizes[VECTORS] = {300000, 150000, 700000};
    repeat(2, sizes);
    size_t before = calls;
    repeat(100, sizes);
    assert(calls - before < 20);
}

// Sizes that no memory has are refused, also those that wrap.
static void refuse_sizes(void) {
    const size_t sizes[] = {
        SIZE_MAX, SIZE_MAX - 7, SIZE_MAX - 8, SIZE_MAX - 15, SIZE_MAX - 24, SIZE_MAX - 4096, SIZE_MAX / 2 + 1,
    };
    for (size_t i = 0; i < sizeof sizes / sizeof *sizes; i++) {
        for (size_t kept = 16; kept < 400000; kept = kept * 3) {
            assert(!rattle_alloc(sizes[i], 16).found);
            struct owned one = {0};
            take(&one, rattle_alloc(kept, 16), kept);
            assert(!rattle_realloc(one.block, kept, sizes[i], 16).found);
            check(&one, kept);
            rattle_dealloc(one.block);
        }
    }
}

int main(int count, char **words) {
    assert(count == 3);
    setvbuf(stdout, NULL, _IOLBF, 0);
    state = strtoull(words[1], NULL, 10);
    rattle_dealloc(rattle_alloc(300000, 16).block); // in the huge page
    repeat(500, (size_t[]){72000, 35000, 1000});
    repeat(10000, (size_t[]){4096, 520, 300});
    repeat(500, (size_t[]){1, 60000, 128000});
    repeat_long_blocks();
    refuse_sizes();
    size_t in_use = 0, most = 0, most_mapped = 0;
    for (unsigned long rounds = strtoul(words[2], NULL, 10); rounds > 0; rounds--) {
        struct owned *one = &owned[random_below(BLOCKS)];
        in_use -= one->block == NULL ? 0 : one->size;
        step(one);
        in_use += one->block == NULL ? 0 : one->size;
        if (in_use > most) most = in_use;
        if (mapped > most_mapped) most_mapped = mapped;
    }
    printf("%zu bytes in use, %zu taken from the system, %zu requests refused\n", most, most_mapped, refused);
    assert(refused > 0 && most_mapped < 3 * most && huge_pages == 1);
    return 0;
}
