// The C library of the WebAssembly module: what the compiled program calls, over a host (program.js) that keeps
// arguments, variables, streams and files in memory. Trusted, not proved.
//
// A host function returns a failure as its negated cause. The function here then returns -1 and keeps the cause in
// `last_error`, as the program expects of the C library.
typedef unsigned char byte;
typedef unsigned short u16;
typedef unsigned int u32;
typedef unsigned long u64;
typedef long i64;
typedef unsigned __int128 u128;

#define HOST(name) __attribute__((import_module("host"), import_name(#name))) extern
HOST(word) i64 host_word(u64 i, byte *at, u64 room);
HOST(variable) i64 host_variable(u64 i, byte *at, u64 room);
HOST(open) i64 host_open(const byte *name, int flags);
HOST(close) i64 host_close(int fd);
HOST(read) i64 host_read(int fd, byte *at, u64 room);
HOST(write) i64 host_write(int fd, const byte *at, u64 count);
HOST(find) i64 host_find(int fd, const byte *name);
HOST(length) i64 host_length(int fd, const byte *name);
HOST(rename) i64 host_rename(const byte *from, const byte *to);
HOST(remove) i64 host_remove(const byte *name);
HOST(random) i64 host_random(byte *at, u64 count);

enum { NO_LINK = 22, NOT_SEEKABLE = 29, NOT_SUPPORTED = 38 };

static int last_error;

static i64 returned(i64 result) {
    if (result >= 0) return result;
    last_error = (int)-result;
    return -1;
}

int rattle_errno(void) { return last_error; }
void rattle_set_errno(int cause) { last_error = cause; }

i64 rattle_arg(u64 i, byte *at, u64 room) { return host_word(i, at, room); }
i64 rattle_env_at(u64 i, byte *at, u64 room) { return host_variable(i, at, room); }

int open(const byte *name, int flags, ...) { return (int)returned(host_open(name, flags)); }
int close(int fd) { return (int)returned(host_close(fd)); }
i64 read(int fd, byte *at, u64 room) { return returned(host_read(fd, at, room)); }
i64 write(int fd, const byte *at, u64 count) { return returned(host_write(fd, at, count)); }
i64 __write(int fd, const byte *at, u64 count) { return write(fd, at, count); }
int rename(const byte *from, const byte *to) { return (int)returned(host_rename(from, to)); }
int unlink(const byte *name) { return (int)returned(host_remove(name)); }
int getentropy(byte *at, u64 count) { return (int)returned(host_random(at, count)); }

// No stream is seekable and no file is a link. A file in memory needs no synchronization.
i64 lseek(int fd, i64 at, int how) { return returned(-NOT_SEEKABLE); }
i64 readlink(const byte *name, byte *at, u64 room) { return returned(-NO_LINK); }
byte *realpath(const byte *name, byte *at) { return returned(-NOT_SUPPORTED), (byte *)0; }
int fsync(int fd) { return 0; }
int fdatasync(int fd) { return 0; }
int fchmod(int fd, u32 mode) { return 0; }
int ftruncate(int fd, i64 at) { return (int)returned(-NOT_SUPPORTED); }
int flock(int fd, int how) { return (int)returned(-NOT_SUPPORTED); }
int __xpg_strerror_r(int cause, byte *at, u64 room) {
    if (room) *at = 0;
    return 0;
}
i64 __sysv_signal(int signal, i64 action) { return 0; }

// The layout of Linux's statx. Every file is a plain one that its owner may read and write.
struct statx {
    u32 mask, block_size;
    u64 attributes;
    u32 links, owner, group;
    u16 mode, unused;
    u64 inode, length, blocks;
    byte rest[256 - 56];
};
_Static_assert(sizeof(struct statx) == 256, "the size of Linux's statx");

int statx(int fd, const byte *name, int flags, u32 mask, struct statx *to) {
    i64 inode = returned(host_find(fd, name));
    if (inode < 0) return -1;
    *to = (struct statx){.mask = 0x7ff, .links = 1, .mode = 0100600, .inode = inode, .length = host_length(fd, name)};
    return 0;
}

// At its start the program asks whether the processor has the instructions it was compiled for.
const u32 *__x86_get_cpuid_feature_leaf(u32 leaf) {
    static const u32 every_feature[8] = {~0u, ~0u, ~0u, ~0u, ~0u, ~0u, ~0u, ~0u};
    return every_feature;
}

// The heap. The size of a block is a power of two; its exponent is in a header in front of it. A freed block is kept
// for the next block of its size.
enum { HEADER = 16, LEAST = 5, SIZES = 48, PAGE = 65536 };
extern byte __heap_base;
static byte *heap_end;
static byte *free_blocks[SIZES];

// Lowered to 32 bits, memory.grow returns a failure as 2^32 - 1 in place of 2^64 - 1. No memory has so many pages.
static int is_grown(u64 pages) { return (u32)__builtin_wasm_memory_grow(0, pages) != ~0u; }

static byte *block_of(u64 exponent) {
    byte *at = free_blocks[exponent];
    if (at) {
        free_blocks[exponent] = *(byte **)at;
        return at;
    }
    if (!heap_end) heap_end = (byte *)(((u64)&__heap_base + 15) & ~15ul);
    u64 end = (u64)heap_end + HEADER + (1ul << exponent), size = __builtin_wasm_memory_size(0) * PAGE;
    if (end > size && !is_grown((end - size + PAGE - 1) / PAGE)) return 0;
    at = heap_end + HEADER;
    *(u64 *)(at - HEADER) = exponent;
    heap_end = (byte *)end;
    return at;
}

static byte *block_for(u64 count) {
    u64 exponent = LEAST;
    while (exponent < SIZES && 1ul << exponent < count) exponent++;
    return exponent < SIZES ? block_of(exponent) : 0;
}

// What the program expects of an allocation: whether there is a block, and a pointer that is never null.
typedef struct {
    u64 is_some;
    byte *at;
} allocation;
static byte no_block;
static allocation allocated(byte *at) { return (allocation){at != 0, at ? at : &no_block}; }

allocation rattle_alloc(u64 count, u64 align) { return allocated(block_for(count)); }

void rattle_dealloc(byte *at) {
    u64 exponent = *(u64 *)(at - HEADER);
    *(byte **)at = free_blocks[exponent];
    free_blocks[exponent] = at;
}

allocation rattle_realloc(byte *at, u64 old, u64 count, u64 align) {
    if (count <= 1ul << *(u64 *)(at - HEADER)) return allocated(at);
    byte *to = block_for(count);
    if (to) {
        __builtin_memcpy(to, at, old);
        rattle_dealloc(at);
    }
    return allocated(to);
}

// Functions that the compiler calls for an instruction of the program.
void *memcpy(void *to, const void *from, u64 count) { return __builtin_memcpy(to, from, count); }
void *memmove(void *to, const void *from, u64 count) { return __builtin_memmove(to, from, count); }
void *memset(void *to, int with, u64 count) { return __builtin_memset(to, with, count); }

static u64 low(u128 x) { return (u64)x; }
static u64 high(u128 x) { return (u64)(x >> 64); }
static u128 joined(u64 high, u64 low) { return (u128)high << 64 | low; }

u128 __multi3(u128 a, u128 b) {
    u64 a0 = (u32)low(a), a1 = low(a) >> 32, b0 = (u32)low(b), b1 = low(b) >> 32;
    u64 lowest = a0 * b0, left = a0 * b1, right = a1 * b0;
    u64 middle = (lowest >> 32) + (u32)left + (u32)right;
    u64 upper = a1 * b1 + (left >> 32) + (right >> 32) + (middle >> 32);
    return joined(upper + low(a) * high(b) + high(a) * low(b), middle << 32 | (u32)lowest);
}

u128 __ashlti3(u128 a, int by) {
    if (by & 64) return joined(low(a) << (by & 63), 0);
    return by ? joined(high(a) << by | low(a) >> (64 - by), low(a) << by) : a;
}

u128 __lshrti3(u128 a, int by) {
    if (by & 64) return joined(0, high(a) >> (by & 63));
    return by ? joined(high(a) >> by, high(a) << (64 - by) | low(a) >> by) : a;
}

u128 __ashrti3(u128 a, int by) {
    u64 sign = -(high(a) >> 63);
    if (by & 64) return joined(sign, (u64)((i64)high(a) >> (by & 63)));
    return by ? joined((u64)((i64)high(a) >> by), high(a) << (64 - by) | low(a) >> by) : a;
}

extern int program_main(void);
__attribute__((export_name("run"))) int run(void) { return program_main(); }
