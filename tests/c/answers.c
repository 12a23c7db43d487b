/* Answers questions with definition files, for tools/comparisons/compare_c_library.py: answers MAIN FILE..
   Reads FROM and TO, each on a line. Writes `STATUS LENGTH`, a line feed and the reply, and then the same for the value
   of FROM, whose text is its number and its dimension. */
#include "units.h"

#include <stdio.h>
#include <stdlib.h>
#include <string.h>

static units_entry read_file(const char *name) {
    FILE *file = fopen(name, "rb");
    char *bytes = malloc(1 << 25);
    if (file == NULL || bytes == NULL) exit(2);
    size_t size = fread(bytes, 1, 1 << 25, file);
    fclose(file);
    return (units_entry){(const uint8_t *)name, strlen(name), (const uint8_t *)bytes, size};
}

static void put(uint32_t status, const char *prefix, const uint8_t *text, size_t length) {
    printf("%u %zu\n%s", status, strlen(prefix) + length, prefix);
    fwrite(text, 1, length, stdout);
}

/* Writes a number of 127 bits in decimal to the end of a buffer. */
static char *decimal(char *end, uint64_t high, uint64_t low) {
    unsigned __int128 n = (unsigned __int128)high << 64 | low;
    *--end = 0;
    do *--end = (char)('0' + (int)(n % 10));
    while (n /= 10);
    return end;
}

int main(int count, char **words) {
    static units_entry files[64];
    static char from[1 << 16], to[1 << 16];
    static uint8_t buffer[1 << 20];
    units_table table = UNITS_TABLE;
    units_options options = {.exact = 1, .strict = 1, .one_line = 1, .compact = 1};
    size_t length;
    for (int i = 1; i < count && i < 64; i++) files[i - 1] = read_file(words[i]);
    units_definitions definitions = {(const uint8_t *)words[1], strlen(words[1]), files, (size_t)count - 1, NULL, 0,
                                     UNITS_TEXT("en_US"), NULL, 0};
    if (units_open(&table, &definitions) != UNITS_DONE) return 3;
    while (fgets(from, sizeof from, stdin) && fgets(to, sizeof to, stdin)) {
        from[strcspn(from, "\n")] = 0;
        to[strcspn(to, "\n")] = 0;
        uint32_t status = units_convert(&table, (const uint8_t *)from, strlen(from), (const uint8_t *)to, strlen(to),
                                        &options, buffer, sizeof buffer, &length);
        put(status, "", buffer, length);
        units_number n;
        char top[64], bottom[64], number[160] = "";
        status = units_value(&table, (const uint8_t *)from, strlen(from), &n, buffer, sizeof buffer, &length);
        if (status == UNITS_DONE) {
            char *numerator = decimal(top + sizeof top, n.numerator_high, n.numerator_low);
            char *denominator = decimal(bottom + sizeof bottom, n.denominator_high, n.denominator_low);
            snprintf(number, sizeof number, "%s%s%s%s%s", n.negative ? "-" : "", numerator,
                     strcmp(denominator, "1") ? "|" : "",
                     strcmp(denominator, "1") ? denominator : "", length ? " " : "");
        }
        put(status, number, buffer, length);
    }
    return units_close(&table) != UNITS_DONE;
}
