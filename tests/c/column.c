/* Converts a column of standard input with a definition file, for tools/comparisons/compare_c_columns.py and
   bench/c_library.py: column [--seconds] DIGITS EXACT ROUND HEADER NUMBER FROM TO DEFINITIONS
   Writes the text of units_convert_column. The status is 0, 1 after UNITS_CELL_ERROR, and 2 after any other fault. With
   --seconds it writes the processor time of the call instead. The definitions are one file without includes. */
#include "units.h"

#include <stdio.h>
#include <stdlib.h>
#include <string.h>
#include <time.h>

typedef struct text {
    uint8_t *bytes;
    size_t length;
} text;

/* Reads all bytes of a file into memory that grows. */
static text read_all(FILE *file) {
    text whole = {malloc(1 << 16), 0};
    size_t room = 1 << 16, count;
    if (file == NULL || whole.bytes == NULL) exit(2);
    while ((count = fread(whole.bytes + whole.length, 1, room - whole.length, file)) != 0) {
        whole.length += count;
        if (whole.length < room) continue;
        room *= 2;
        whole.bytes = realloc(whole.bytes, room);
        if (whole.bytes == NULL) exit(2);
    }
    return whole;
}

static double seconds(void) { return (double)clock() / CLOCKS_PER_SEC; }

int main(int count, char **words) {
    int is_timed = count > 1 && strcmp(words[1], "--seconds") == 0;
    words += is_timed, count -= is_timed;
    if (count != 9) return 2;
    text definitions = read_all(fopen(words[8], "rb")), input = read_all(stdin);
    units_entry entry = {UNITS_TEXT("main"), definitions.bytes, definitions.length};
    units_definitions table_definitions = {UNITS_TEXT("main"), &entry, 1, NULL, 0, UNITS_TEXT("en_US"), NULL, 0};
    units_options options = {.digits = (uint8_t)atoi(words[1]), .exact = (uint8_t)atoi(words[2]),
                             .round = (uint8_t)atoi(words[3])};
    units_column column = {(const uint8_t *)words[6], strlen(words[6]), (const uint8_t *)words[7], strlen(words[7]),
                           (size_t)atol(words[5]), (uint8_t)atoi(words[4])};
    units_table table = UNITS_TABLE;
    size_t size = 4 * input.length + 65536, length;
    uint8_t *buffer = malloc(size);
    if (buffer == NULL || units_open(&table, &table_definitions) != UNITS_DONE) return 2;
    double start = seconds();
    uint32_t status = units_convert_column(&table, &column, input.bytes, input.length, &options, buffer, size, &length);
    if (status == UNITS_NO_ROOM) {
        free(buffer);
        size = length;
        buffer = malloc(size);
        if (buffer == NULL) return 2;
        status = units_convert_column(&table, &column, input.bytes, input.length, &options, buffer, size, &length);
    }
    double end = seconds();
    if (is_timed) printf("%.6f\n", end - start); else fwrite(buffer, 1, length, stdout);
    free(buffer), free(input.bytes), free(definitions.bytes);
    if (units_close(&table) != UNITS_DONE) return 2;
    return status == UNITS_DONE ? 0 : status == UNITS_CELL_ERROR ? 1 : 2;
}
