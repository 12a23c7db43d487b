// copies_test: compares the copy functions of the static program, compiled under the names below, with those of the C
// library, for all lengths up to 200 and for many distances, including overlaps of source and target; then for all
// lengths up to 700 and a few distances, since long copies are made of larger parts.
#include <assert.h>
#include <stdio.h>
#include <stdlib.h>
#include <string.h>

void *static_memcpy(void *target, const void *source, size_t length);
void *static_memmove(void *target, const void *source, size_t length);
void *static_memset(void *target, int value, size_t length);

enum { ROOM = 640, MIDDLE = 220, LENGTHS = 200, OFFSETS = 17, LONG_LENGTHS = 700, LONG_ROOM = 3 * LONG_LENGTHS + 4 };

static unsigned char ours[LONG_ROOM], theirs[LONG_ROOM], other[LONG_ROOM];
static size_t room = ROOM; // the bytes that are compared

static void fill(void) {
    for (size_t i = 0; i < room; i++) ours[i] = theirs[i] = (unsigned char)rand(), other[i] = (unsigned char)rand();
}

static void compare(size_t length, long from, long to) {
    fill();
    assert(static_memmove(ours + to, ours + from, length) == ours + to);
    memmove(theirs + to, theirs + from, length);
    assert(memcmp(ours, theirs, room) == 0);
    assert(static_memcpy(ours + to, other + from, length) == ours + to);
    memcpy(theirs + to, other + from, length);
    assert(memcmp(ours, theirs, room) == 0);
    assert(static_memset(ours + to, (int)(from + to), length) == ours + to);
    memset(theirs + to, (int)(from + to), length);
    assert(memcmp(ours, theirs, room) == 0);
}

static void compare_long(size_t length) {
    const long n = (long)length, distances[] = {1, 15, 16, 17, 63, 64, 65, 255, 256, 257, n - 1, n, n + 1};
    for (size_t i = 0; i < sizeof distances / sizeof *distances; i++) {
        if (distances[i] > n + 2) continue;
        compare(length, LONG_LENGTHS + 2, LONG_LENGTHS + 2 + distances[i]);
        compare(length, LONG_LENGTHS + 2, LONG_LENGTHS + 2 - distances[i]);
    }
}

int main(void) {
    for (size_t length = 0; length <= LENGTHS; length++) {
        for (long from = MIDDLE; from < MIDDLE + OFFSETS; from++) {
            for (long distance = -(long)length - 2; distance <= (long)length + 2; distance++) {
                compare(length, from, from + distance);
            }
        }
    }
    room = LONG_ROOM;
    for (size_t length = 1; length <= LONG_LENGTHS; length++) compare_long(length);
    puts("copies agree");
    return 0;
}
