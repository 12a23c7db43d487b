/* Four threads, each with its own table, convert, evaluate and edit at the same time. Then they take turns with one
   table. The last line is `N passed, M failed`. */
#include "units.h"

#include <pthread.h>
#include <stdio.h>
#include <stdlib.h>
#include <string.h>

enum { THREADS = 4 };

static int rounds = 500;

typedef struct worker {
    pthread_t thread;
    unsigned number;
    unsigned wrong;
} worker;

static const char text[] = "m !\ns !\nkilo- 1000\ninch 254|10000 m\nft 12 inch\nmin 60 s\nhour 60 min\n";

static void check(worker *own, int is_right) { own->wrong += !is_right; }

/* Converts and compares the answer. */
static void convert(worker *own, units_table *table, const char *from, const char *to, const char *answer) {
    units_options options = {.exact = 1, .one_line = 1, .compact = 1};
    uint8_t buffer[64];
    size_t length;
    uint32_t status = units_convert(table, (const uint8_t *)from, strlen(from), (const uint8_t *)to, strlen(to),
                                    &options, buffer, sizeof buffer, &length);
    check(own, status == UNITS_DONE && length == strlen(answer) && memcmp(buffer, answer, length) == 0);
}

/* Converts a column of one number and compares the answer. */
static void convert_column(worker *own, units_table *table, const char *number, const char *answer) {
    units_options options = {.exact = 1};
    units_column column = {UNITS_TEXT("ft"), UNITS_TEXT("inch"), 1, 0};
    uint8_t buffer[64];
    size_t length;
    uint32_t status = units_convert_column(table, &column, (const uint8_t *)number, strlen(number), &options, buffer,
                                           sizeof buffer, &length);
    check(own, status == UNITS_DONE && length == strlen(answer) && memcmp(buffer, answer, length) == 0);
}

static uint32_t open_table(units_table *table) {
    units_entry file = {UNITS_TEXT("main"), (const uint8_t *)text, strlen(text)};
    units_definitions definitions = {UNITS_TEXT("main"), &file, 1, NULL, 0, UNITS_NO_TEXT, UNITS_NO_TEXT};
    return units_open(table, &definitions);
}

static units_table shared = UNITS_TABLE;
static pthread_mutex_t turn = PTHREAD_MUTEX_INITIALIZER;

/* Edits and asks the shared table, in turns with the other threads. */
static void *share(void *at) {
    worker *own = at;
    uint8_t buffer[64];
    size_t length;
    for (int i = 0; i < rounds; i++) {
        char answer[64], line[64];
        snprintf(line, sizeof line, "own %d m", i + 1);
        snprintf(answer, sizeof answer, "%d\n", i + 1);
        pthread_mutex_lock(&turn);
        check(own, units_define(&shared, (const uint8_t *)line, strlen(line), buffer, sizeof buffer, &length)
              == UNITS_DONE);
        convert(own, &shared, "own", "m", answer);
        pthread_mutex_unlock(&turn);
    }
    return NULL;
}

static void *work(void *at) {
    worker *own = at;
    units_table table = UNITS_TABLE;
    uint8_t buffer[64];
    size_t length;
    check(own, open_table(&table) == UNITS_DONE);
    for (int i = 0; i < rounds; i++) {
        char from[64], answer[64], line[64];
        unsigned n = own->number * 1000 + (unsigned)i % 1000 + 1;
        snprintf(from, sizeof from, "%u ft", n);
        snprintf(answer, sizeof answer, "%u\n", 12 * n);
        convert(own, &table, from, "inch", answer);
        snprintf(from, sizeof from, "%u", n);
        convert_column(own, &table, from, answer);
        convert(own, &table, "kilom/hour", "m/s", "5|18\n");
        snprintf(line, sizeof line, "own %u m", n);
        snprintf(answer, sizeof answer, "%u\n", n);
        check(own, units_define(&table, (const uint8_t *)line, strlen(line), buffer, sizeof buffer, &length)
              == UNITS_DONE);
        convert(own, &table, "own", "m", answer);
        check(own, units_undo(&table, buffer, sizeof buffer, &length) == UNITS_DONE);
    }
    check(own, units_close(&table) == UNITS_DONE);
    return NULL;
}

/* Runs the threads, and returns how many of them got a wrong answer. */
static int run_threads(void *(*act)(void *)) {
    worker workers[THREADS] = {0};
    int failed = 0;
    for (unsigned i = 0; i < THREADS; i++) {
        workers[i].number = i;
        if (pthread_create(&workers[i].thread, NULL, act, &workers[i]) != 0) exit(2);
    }
    for (int i = 0; i < THREADS; i++) {
        pthread_join(workers[i].thread, NULL);
        failed += workers[i].wrong != 0;
    }
    return failed;
}

int main(int count, char **words) {
    if (count > 1) rounds = atoi(words[1]);
    int failed = run_threads(work);
    if (open_table(&shared) != UNITS_DONE) return 2;
    failed += run_threads(share);
    if (units_close(&shared) != UNITS_DONE) return 2;
    printf("%d passed, %d failed\n", 2 * THREADS - failed, failed);
    return failed != 0;
}
