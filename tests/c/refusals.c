/* Refuses each allocation of each call in turn. Each such call has to return UNITS_NO_MEMORY and to leave the table as
   it was, open or closed, with the same answers, and the repeated call has to succeed. Linked with
   -Wl,--wrap=malloc,--wrap=realloc. The last line is `N passed, M failed`. */
#include "units.h"

#include <stdio.h>
#include <stdlib.h>
#include <string.h>

void *__real_malloc(size_t size);
void *__real_realloc(void *block, size_t size);
void *__wrap_malloc(size_t size);
void *__wrap_realloc(void *block, size_t size);

static long number, refused_number;
static int was_refused;

static int is_refused(void) {
    if (refused_number == 0 || ++number != refused_number) return 0;
    was_refused = 1;
    return 1;
}

void *__wrap_malloc(size_t size) { return is_refused() ? NULL : __real_malloc(size); }
void *__wrap_realloc(void *block, size_t size) { return is_refused() ? NULL : __real_realloc(block, size); }

static const char main_text[] =
    "m !\ns !\n!include more\nkilo- 1000\nft 12 inch\nyard 3 ft\nsquare(x) units=[1;m^2] x m^2 ; sqrt(square/m^2)\n"
    "gauge[m] 1 2 3 6\n!unitlist hms ft;inch\nbad 2 nothing\n!var A b\nx 2 m\n!endvar\nround rounder\nrounder round\n";
static const char more_text[] = "inch 254|10000 m\n";

static units_table table;
static uint8_t buffer[1024];
static size_t length;
static int passed, failed;

#define TEXT(string) (const uint8_t *)(string), strlen(string)
#define ROOM buffer, sizeof buffer, &length

static uint32_t convert(const char *from, const char *to) {
    units_options options = {.exact = 1, .one_line = 1, .compact = 1};
    return units_convert(&table, TEXT(from), TEXT(to), &options, ROOM);
}

static uint32_t open_table(void) {
    units_entry files[] = {{UNITS_TEXT("main"), TEXT(main_text)}, {UNITS_TEXT("more"), TEXT(more_text)}};
    units_entry variable = {UNITS_TEXT("A"), UNITS_TEXT("b")};
    units_definitions definitions = {UNITS_TEXT("main"), files, 2, &variable, 1, UNITS_TEXT("en_US"), NULL, 0};
    return units_open(&table, &definitions);
}

static uint32_t value(const char *expression) {
    units_number n;
    return units_value(&table, TEXT(expression), &n, ROOM);
}

static uint32_t ask_length(void) { return convert("3 yard + x", "inch"); }
static uint32_t ask_list(void) { return convert("64 inch", "hms"); }
static uint32_t ask_inverse(void) { return convert("9 m^2", "square"); }
static uint32_t ask_point(void) { return convert("gauge(2)", "m"); }
static uint32_t ask_unlike(void) { return convert("yard", "s"); }
static uint32_t ask_unknown(void) { return convert("bad", "s"); }
static uint32_t ask_cycle(void) { return convert("round", "s"); }
static uint32_t ask_value(void) { return value("3 yard^2 / s"); }
static uint32_t ask_fault(void) { return value("1 m + 1 s"); }
static uint32_t convert_column(const char *from, const char *to) {
    units_options options = {.exact = 1};
    units_column column = {TEXT(from), TEXT(to), 2, 1};
    return units_convert_column(&table, &column, TEXT("a,b\n1,2\n3,\"4\",5\n6\n7,8\n"), &options, ROOM);
}

static uint32_t ask_column(void) { return convert_column("yard", "inch"); }
static uint32_t ask_function_column(void) { return convert_column("gauge", "inch"); }
static uint32_t ask_unlike_column(void) { return convert_column("yard", "s"); }
static uint32_t search(void) { return units_search(&table, TEXT("a"), ROOM); }
static uint32_t define(void) { return units_define(&table, TEXT("ft 11 inch"), ROOM); }
static uint32_t define_badly(void) { return units_define(&table, TEXT("ft 2 +"), ROOM); }
static uint32_t drop(void) { return units_drop(&table, TEXT("ft"), ROOM); }
static uint32_t drop_absent(void) { return units_drop(&table, TEXT("absent"), ROOM); }
static uint32_t undo(void) { return units_undo(&table, ROOM); }
static uint32_t redo(void) { return units_redo(&table, ROOM); }

/* The states in which the calls are made. */
static void closed(void) {}
static void opened(void) { open_table(); }
static void defined(void) { open_table(), define(); }
static void undone(void) { open_table(), define(), undo(); }
static void dropped(void) { open_table(), define(), drop(); }

typedef struct call {
    const char *name;
    void (*prepare)(void);
    uint32_t (*make)(void);
    uint32_t status;
    const char *foot; /* a foot in inches before the call */
} call;

static const call calls[] = {
    {"open", closed, open_table, UNITS_DONE, NULL},
    {"convert", opened, ask_length, UNITS_DONE, "12\n"},
    {"convert to a list", opened, ask_list, UNITS_DONE, "12\n"},
    {"convert by an inverse", opened, ask_inverse, UNITS_DONE, "12\n"},
    {"convert by points", opened, ask_point, UNITS_DONE, "12\n"},
    {"convert to an unlike unit", opened, ask_unlike, UNITS_CONFORMABILITY_ERROR, "12\n"},
    {"convert an unknown unit", opened, ask_unknown, UNITS_UNKNOWN_UNIT, "12\n"},
    {"convert a cycle", opened, ask_cycle, UNITS_CYCLE, "12\n"},
    {"value", opened, ask_value, UNITS_DONE, "12\n"},
    {"value with a fault", opened, ask_fault, UNITS_UNLIKE_SUM, "12\n"},
    {"convert a column", opened, ask_column, UNITS_DONE, "12\n"},
    {"convert a column by points", opened, ask_function_column, UNITS_CELL_ERROR, "12\n"},
    {"convert a column to an unlike unit", opened, ask_unlike_column, UNITS_CELL_ERROR, "12\n"},
    {"search", opened, search, UNITS_DONE, "12\n"},
    {"define", opened, define, UNITS_DONE, "12\n"},
    {"define badly", defined, define_badly, UNITS_SYNTAX_ERROR, "11\n"},
    {"undo", defined, undo, UNITS_DONE, "11\n"},
    {"redo", undone, redo, UNITS_DONE, "12\n"},
    {"drop", defined, drop, UNITS_DONE, "11\n"},
    {"drop an absent one", opened, drop_absent, UNITS_NO_SUCH_DEFINITION, "12\n"},
    {"undo a drop", dropped, undo, UNITS_DONE, "12\n"},
};

/* Whether the table is the same as before a call. */
static int is_as_before(const call *own) {
    if (own->foot == NULL) return convert("ft", "inch") == UNITS_CLOSED;
    return convert("ft", "inch") == UNITS_DONE && length == strlen(own->foot) && !memcmp(buffer, own->foot, length);
}

/* Makes a call and refuses the allocation of this number. Returns whether the call ended as expected. */
static int try_call(const call *own, long n) {
    units_close(&table);
    own->prepare();
    number = 0, refused_number = n, was_refused = 0;
    uint32_t status = own->make();
    refused_number = 0;
    if (!was_refused) return status == own->status;
    if (own->make == drop && status == own->status) return 1; /* a drop can do without memory for a gap */
    if (status == UNITS_NO_MEMORY && is_as_before(own) && own->make() == own->status) return 1;
    printf("%s: with allocation %ld refused it returned %u, or the table was not as before\n", own->name, n, status);
    return 0;
}

static void refuse_each(const call *own) {
    long n = 1;
    int is_right = 1;
    do is_right &= try_call(own, n++);
    while (was_refused);
    printf("%s: %ld allocations refused\n", own->name, n - 2);
    if (is_right) passed++; else failed++;
}

int main(void) {
    for (size_t i = 0; i < sizeof calls / sizeof *calls; i++) refuse_each(&calls[i]);
    units_close(&table);
    printf("%d passed, %d failed\n", passed, failed);
    return failed != 0;
}
