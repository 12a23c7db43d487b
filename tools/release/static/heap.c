// The heap of the static program, instead of the toolchain's three functions that call malloc. It is made for a program
// that runs for milliseconds and keeps most of its blocks: a block is a freed one of its class or the next part of a
// chunk, whose pages are mapped in one call. Freed blocks are not joined, but the sizes in a class differ by at most an
// eighth, and the next chunk is the smallest freed block above 1 KiB that suffices, so that long blocks stay whole for
// long requests. A block above 128 KiB has pages of its own, which grow without a copy. Up to 4 MiB of such pages are
// kept when they are freed, joined and divided as needed, so that a program which makes and frees a long block over and
// over calls the system once. No memory is requested while pages are kept. The first block of 256 KiB, into which a
// program reads a long definition file, makes a huge page the chunk: the kernel maps it faster than the small pages
// that the definitions would fill. The next block above 128 KiB, which has the lines of the definitions, begins near
// the end of that page and can grow past it in place. Programs with threads cannot use this heap:
// tools/release/static.sh refuses them.
#define _GNU_SOURCE
#include <errno.h>
#include <stdbool.h>
#include <stddef.h>
#include <stdint.h>
#include <string.h>
#include <sys/mman.h>

// The result of the toolchain's functions: whether there was memory, and the block.
struct allocation {
    bool found;
    void *block;
};

// A block begins with its size, which includes this header. The program's part follows, aligned to 16 bytes, the widest
// alignment that the toolchain requests. In a freed block, it leads to the program's part of the next one of its class.
struct block {
    size_t size;
    void *next;
};

enum {
    UNIT = 16,
    HEADER = offsetof(struct block, next),
    SMALL = 1024,       // up to this size, each multiple of a unit is a class
    LARGE = 128 * 1024, // above this size, a block has pages of its own
    STEPS = 8,          // classes for each doubling between the two
    CLASSES = SMALL / UNIT + 7 * STEPS + 1,
    PAGE = 4096,
    FIRST_CHUNK = 64 * 1024,
    LONGEST_CHUNK = 256 * 1024,
    LONGEST_MAPPED = 512 * 1024, // memory whose pages are mapped at once
    LONG = 256 * 1024,           // from this size on, a block asks for the huge page
    HUGE_PAGE = 2 * 1024 * 1024,
    GROWING_INSIDE = 272 * 1024, // the end of the huge page that is left to the growing block
    GROWING_ROOM = 544 * 1024,   // the room of that block, with the pages after the huge page
    POPULATE_WRITE = 23, // an advice of Linux 5.14, which musl's headers lack
    MOST_KEPT = 16,      // ranges of pages
    MOST_KEPT_BYTES = 4 * 1024 * 1024,
};

// Pages that were freed and that the system has not got back.
struct pages {
    char *at;
    size_t size;
};

static void *freed[CLASSES]; // the program's part of a freed block, NULL if there is none
static struct pages kept[MOST_KEPT]; // no two of them are neighbours
static unsigned kept_count;
static size_t kept_bytes;
static char *unused, *end_of_chunk; // the rest of the chunk
static size_t in_chunks;            // the bytes of all chunks
static char *huge_page;             // NULL if the program has none
static char *room_to_grow;          // the end of the huge page, NULL after a block has taken it
static struct block *growing;       // that block, NULL before it is made and after it is freed

static size_t rounded(size_t size, size_t unit) { return (size + unit - 1) & -unit; }

// An eighth of the largest power of two that is at most the size.
static size_t step_from(size_t size) { return ((size_t)1 << (63 - __builtin_clzl(size))) / STEPS; }

// The size of a block for a number of bytes: that of a class, or of whole pages. If it is no size at all, the system
// refuses what is returned.
static size_t block_size(size_t bytes) {
    if (bytes <= SMALL - HEADER) return rounded(bytes + HEADER, UNIT);
    if (bytes <= LARGE - HEADER) return rounded(bytes + HEADER, step_from(bytes + HEADER - 1));
    return bytes <= PTRDIFF_MAX - PAGE ? rounded(bytes + UNIT, PAGE) : (size_t)-PAGE;
}

// The class of a size that block_size returns, up to LARGE.
static size_t class_of(size_t size) {
    if (size <= SMALL) return size / UNIT;
    size_t step = step_from(size - 1), doublings = __builtin_ctzl(step) - __builtin_ctzl(SMALL / STEPS);
    return SMALL / UNIT + doublings * STEPS + size / step - STEPS;
}

static struct block *block_of(void *part) { return (struct block *)((char *)part - HEADER); }

static inline void put_in_class(void *part, size_t class) {
    block_of(part)->next = freed[class];
    freed[class] = part;
}

// The program's part of a freed block of this class, NULL if there is none.
static inline void *take_of_class(size_t class) {
    void *part = freed[class];
    if (part != NULL) freed[class] = block_of(part)->next;
    return part;
}

static void put(struct block *block, size_t size) {
    block->size = size;
    put_in_class(&block->next, class_of(size));
}

// Frees memory of whole units, as blocks of the largest classes that fit.
static void put_all(char *memory, size_t left) {
    while (left > 0) {
        size_t size = left <= SMALL ? left : left & -step_from(left);
        if (size > LARGE) size = LARGE;
        put((struct block *)memory, size);
        memory += size;
        left -= size;
    }
}

// Frees the rest of the chunk.
static void leave_chunk(void) {
    put_all(unused, (size_t)(end_of_chunk - unused) & -UNIT);
    unused = end_of_chunk;
}

// New memory from the system. Mapping all pages here takes half the time of mapping each at its first write. Large
// memory is not mapped at once, since the program may leave most of it unused.
static char *new_pages(size_t size) {
    int at_once = size <= LONGEST_MAPPED ? MAP_POPULATE : 0;
    return mmap(NULL, size, PROT_READ | PROT_WRITE, MAP_PRIVATE | MAP_ANONYMOUS | at_once, -1, 0);
}

static void remove_kept(unsigned i) {
    kept_bytes -= kept[i].size;
    kept[i] = kept[--kept_count];
}

static void return_kept(unsigned i) {
    munmap(kept[i].at, kept[i].size);
    remove_kept(i);
}

// Keeps pages, joined with their neighbours. Returns others, or these, to the system if they are too many.
static void free_pages(char *at, size_t size) {
    for (unsigned i = 0; i < kept_count;) {
        bool is_before = kept[i].at + kept[i].size == at, is_after = at + size == kept[i].at;
        if (is_before) at = kept[i].at;
        if (is_before || is_after) size += kept[i].size, remove_kept(i);
        else i++;
    }
    if (size > MOST_KEPT_BYTES) {
        munmap(at, size);
        return;
    }
    while (kept_count == MOST_KEPT || kept_bytes + size > MOST_KEPT_BYTES) return_kept(0);
    kept[kept_count++] = (struct pages){at, size};
    kept_bytes += size;
}

static char *first_part(unsigned i, size_t size) {
    char *at = kept[i].at;
    kept[i].at += size;
    kept[i].size -= size;
    kept_bytes -= size;
    if (kept[i].size == 0) remove_kept(i);
    return at;
}

// The place of the smallest kept pages that suffice, MOST_KEPT if there are none.
static unsigned best_kept(size_t size) {
    unsigned best = MOST_KEPT;
    for (unsigned i = 0; i < kept_count; i++) {
        if (kept[i].size >= size && (best == MOST_KEPT || kept[i].size < kept[best].size)) best = i;
    }
    return best;
}

// Kept pages, or new memory.
static char *take_pages(size_t size) {
    unsigned best = best_kept(size);
    if (best != MOST_KEPT) return first_part(best, size);
    while (kept_count > 0) return_kept(0);
    return new_pages(size);
}

// Extends pages that end here, if the pages after them are kept.
static bool extend(const char *end, size_t by) {
    for (unsigned i = 0; i < kept_count; i++) {
        if (kept[i].at == end && kept[i].size >= by) return first_part(i, by);
    }
    return false;
}

static void use_as_chunk(char *memory, size_t length) {
    in_chunks += length;
    unused = memory + UNIT - HEADER;
    end_of_chunk = memory + length;
}

// Begins a chunk with room for a block: the smallest freed block that suffices, or pages.
static bool begin_chunk(size_t size) {
    leave_chunk();
    for (size_t class = size <= SMALL ? SMALL / UNIT + 1 : class_of(size); class < CLASSES; class++) {
        void *part = take_of_class(class);
        if (part == NULL) continue;
        unused = (char *)block_of(part);
        end_of_chunk = unused + block_of(part)->size;
        return true;
    }
    size_t length = in_chunks / 4 & -PAGE;
    if (length < FIRST_CHUNK) length = FIRST_CHUNK;
    if (length > LONGEST_CHUNK) length = LONGEST_CHUNK;
    if (length < size + UNIT) length = rounded(size + UNIT, PAGE);
    char *chunk = take_pages(length);
    if (chunk == MAP_FAILED) return false;
    use_as_chunk(chunk, length);
    return true;
}

// Makes a huge page the chunk, except for its end, if the system has the memory. If it has no huge page, these are
// small pages. The pages after it are mapped when the growing block reaches them.
static void begin_huge_page(void) {
    const size_t length = HUGE_PAGE + GROWING_ROOM - GROWING_INSIDE, mapped = length + HUGE_PAGE;
    char *memory = mmap(NULL, mapped, PROT_READ | PROT_WRITE, MAP_PRIVATE | MAP_ANONYMOUS, -1, 0);
    if (memory == MAP_FAILED) return;
    char *page = (char *)rounded((size_t)memory, HUGE_PAGE), *end = memory + mapped;
    if (page > memory) munmap(memory, (size_t)(page - memory));
    if (page + length < end) munmap(page + length, (size_t)(end - page - length));
    madvise(page, HUGE_PAGE, MADV_HUGEPAGE);
    madvise(page, HUGE_PAGE, POPULATE_WRITE);
    leave_chunk();
    use_as_chunk(page, HUGE_PAGE - GROWING_INSIDE);
    huge_page = page;
    room_to_grow = page + HUGE_PAGE - GROWING_INSIDE;
}

// Whether a block above LARGE is a part of the huge page, without pages of its own.
static bool is_in_huge_page(const struct block *block) {
    return huge_page != NULL && (uintptr_t)block - (uintptr_t)huge_page < HUGE_PAGE;
}

static struct allocation none(void) {
    static char nothing;
    return (struct allocation){false, &nothing};
}

static struct allocation some(struct block *block, size_t size) {
    block->size = size;
    return (struct allocation){true, &block->next};
}

static struct allocation block_of_pages(char *memory, size_t size) {
    return memory == MAP_FAILED ? none() : some((struct block *)(memory + UNIT - HEADER), size);
}

static struct allocation next_block(size_t size) {
    struct block *block = (struct block *)unused;
    unused += size;
    return some(block, size);
}

__attribute__((noinline)) static struct allocation block_of_new_chunk(size_t size) {
    return begin_chunk(size) ? next_block(size) : none();
}

static inline struct allocation block_of_class(size_t class, size_t size) {
    void *part = take_of_class(class);
    if (part != NULL) return (struct allocation){true, part}; // of the same size as before
    return unused + size <= end_of_chunk ? next_block(size) : block_of_new_chunk(size);
}

// Whether the growing block may have this size.
static bool fits_growing(size_t size) { return size > LARGE && size <= GROWING_ROOM - UNIT; }

// A block above LARGE.
static struct allocation large_block(size_t size) {
    if (best_kept(size) != MOST_KEPT) return block_of_pages(take_pages(size), size);
    if (size >= LONG && huge_page == NULL) {
        begin_huge_page();
        if (huge_page != NULL && (size_t)(end_of_chunk - unused) >= size) return next_block(size);
    } else if (room_to_grow != NULL && fits_growing(size)) {
        growing = (struct block *)(room_to_grow + UNIT - HEADER);
        room_to_grow = NULL;
        return some(growing, size);
    }
    return block_of_pages(take_pages(size), size);
}

// rattle_alloc for blocks that are not small; most are.
__attribute__((noinline)) static struct allocation new_block(size_t size) {
    return size > LARGE ? large_block(size) : block_of_class(class_of(size), size);
}

struct allocation rattle_alloc(size_t bytes, size_t align) {
    (void)align; // each block is aligned to 16 bytes, even an empty one, which has 8
    size_t size = rounded(bytes + HEADER, UNIT);
    return bytes <= SMALL - HEADER ? block_of_class(size / UNIT, size) : new_block(block_size(bytes));
}

// rattle_dealloc for blocks that are not small.
__attribute__((noinline)) static void free_block(struct block *block) {
    if (block->size <= LARGE) {
        put(block, block->size);
        return;
    }
    if (block == growing) growing = NULL;
    if (is_in_huge_page(block)) put_all((char *)block, block->size);
    else free_pages((char *)block + HEADER - UNIT, block->size);
}

void rattle_dealloc(void *old) {
    size_t size = block_of(old)->size;
    if (size <= SMALL) put_in_class(old, size / UNIT);
    else free_block(block_of(old));
}

// Gives the last block of the chunk this size, if there is room. It should not grow if a block of that size was freed,
// since a vector that grows over and over would then take new memory each time and never the freed one.
static inline bool resize_last(struct block *block, size_t size, size_t class) {
    if ((char *)block + block->size != unused || (char *)block + size > end_of_chunk) return false;
    if (size > block->size && freed[class] != NULL) return false;
    unused = (char *)block + size;
    block->size = size;
    return true;
}

// Resizes a block with pages of its own. EFAULT says that it has to be copied: there are kept pages for it, or the system
// does not take joined pages for one range.
static struct allocation resized_pages(char *at, size_t before, size_t size) {
    if (size < before) {
        free_pages(at + size, before - size);
    } else if (!extend(at + before, size - before)) {
        errno = EFAULT;
        at = best_kept(size) == MOST_KEPT ? mremap(at, before, size, MREMAP_MAYMOVE) : MAP_FAILED;
    }
    return block_of_pages(at, size);
}

// rattle_realloc for blocks of which one is not small.
__attribute__((noinline)) static struct allocation resized_block(void *old, size_t kept, size_t bytes) {
    struct block *block = block_of(old);
    size_t size = block_size(bytes), before = block->size;
    if (size == before) return some(block, size);
    if (block == growing && fits_growing(size)) return some(block, size);
    if (size > LARGE && before > LARGE && !is_in_huge_page(block)) {
        struct allocation resized = resized_pages((char *)old - UNIT, before, size);
        if (resized.found || errno != EFAULT) return resized;
    }
    if (size <= LARGE && resize_last(block, size, class_of(size))) return (struct allocation){true, old};
    struct allocation moved = rattle_alloc(bytes, UNIT);
    if (!moved.found) return moved;
    memcpy(moved.block, old, kept < bytes ? kept : bytes);
    rattle_dealloc(old);
    return moved;
}

struct allocation rattle_realloc(void *old, size_t kept, size_t bytes, size_t align) {
    (void)align;
    struct block *block = block_of(old);
    if (bytes > SMALL - HEADER || block->size > SMALL) return resized_block(old, kept, bytes);
    size_t size = rounded(bytes + HEADER, UNIT), class = size / UNIT;
    if (size == block->size || resize_last(block, size, class)) return (struct allocation){true, old};
    struct allocation moved = block_of_class(class, size);
    if (!moved.found) return moved;
    memcpy(moved.block, old, kept < bytes ? kept : bytes);
    put_in_class(old, block->size / UNIT);
    return moved;
}
