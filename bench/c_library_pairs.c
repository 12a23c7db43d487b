/* Times conversions of new pairs from C: c_library_pairs DEFINITIONS COUNT.
   Prints the microseconds of one conversion by the clock. The definitions are one file without includes. */
#include "units.h"

#include <stdio.h>
#include <stdlib.h>
#include <string.h>
#include <time.h>

static char text[1 << 24];

static double seconds(void) {
    struct timespec now;
    clock_gettime(CLOCK_MONOTONIC, &now);
    return (double)now.tv_sec + 1e-9 * (double)now.tv_nsec;
}

int main(int count, char **words) {
    if (count != 3) return 2;
    FILE *file = fopen(words[1], "rb");
    if (file == NULL) return 2;
    units_entry entry = {UNITS_TEXT("main"), (const uint8_t *)text, fread(text, 1, sizeof text, file)};
    fclose(file);
    units_definitions definitions = {UNITS_TEXT("main"), &entry, 1, NULL, 0, UNITS_TEXT("en_US"), NULL, 0};
    units_options options = {.exact = 1, .strict = 1, .one_line = 1, .compact = 1};
    units_table table = UNITS_TABLE;
    uint8_t buffer[256];
    size_t length;
    if (units_open(&table, &definitions) != UNITS_DONE) return 3;
    long pairs = atol(words[2]);
    double start = seconds();
    for (long i = 1; i <= pairs; i++) {
        char from[64], to[64];
        int n = snprintf(from, sizeof from, "%ld mile/hour", i), m = snprintf(to, sizeof to, "%ld m/s", i % 97 + 1);
        if (units_convert(&table, (const uint8_t *)from, (size_t)n, (const uint8_t *)to, (size_t)m, &options, buffer,
                          sizeof buffer, &length) != UNITS_DONE) return 4;
    }
    printf("%.4f\n", 1e6 * (seconds() - start) / (double)pairs);
    return units_close(&table) != UNITS_DONE;
}
