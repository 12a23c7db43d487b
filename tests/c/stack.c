/* Calls each function of the library on a stack of UNITS_STACK_SIZE bytes below a guard page, over the definitions that
   need most: functions that call one another up to the limit, each with an expression nested up to the limit. With an
   argument, a stack of so many bytes. Prints the bytes that each call has used; the last line is `N passed, M failed`.
   A call that needs more stack ends the program by SIGSEGV. */
#define _GNU_SOURCE
#include "units.h"

#include <pthread.h>
#include <stdio.h>
#include <stdlib.h>
#include <string.h>
#include <sys/mman.h>

enum { FUNCTIONS = 16, UNUSED = 0xa5 };

/* A level of an expression, and how many of them may be nested. */
typedef struct shape {
    const char *name;
    const char *start;
    int levels;
} shape;

static const shape shapes[] = {
    {"roots", "0+1*1 sqrt(", 63},  {"products", "0+1*1 x(", 63},    {"calls", "0+1*1 v_1(", 63},
    {"inverses", "0+1*1 ~v_1(", 63}, {"signs", "0-1*-1 sqrt(", 31},
};

static const char plain_text[] =
    "m !\ns !\ninch 254|10000 m\nft 12 inch\nmile 5280 ft\nmin 60 s\nhour 60 min\nkilo- 1000\nv_1(x) x ; v_1\n";

static size_t stack_size = UNITS_STACK_SIZE;
static uint8_t *stack;
static int passed, failed;

static char definitions_text[1 << 18], question[1 << 12], deep_line[1 << 12];
static uint8_t buffer[1 << 16];
static size_t length;
static units_table table;

/* Appends a nested expression around a text. */
static void append_nested(char *text, const shape *deep, const char *inner) {
    for (int i = 0; i < deep->levels; i++) strcat(text, deep->start);
    strcat(text, inner);
    for (int i = 0; i < deep->levels; i++) strcat(text, ")^1");
}

/* Writes the definitions, a question that calls the deepest function, and a line that defines one more. */
static void write_texts(const shape *deep) {
    char name[16];
    strcpy(definitions_text, plain_text);
    for (int i = 2; i <= FUNCTIONS; i++) {
        char *end = definitions_text + strlen(definitions_text);
        sprintf(end, "v_%d(x) ", i);
        snprintf(name, sizeof name, "v_%d(x)", i - 1);
        append_nested(end, deep, name);
        strcat(end, "\n");
    }
    question[0] = deep_line[0] = 0;
    snprintf(name, sizeof name, "v_%d(1)", FUNCTIONS);
    /* `x` is the parameter of a function, and no unit. */
    append_nested(question, deep->start[6] == 'x' ? &shapes[0] : deep, name);
    strcpy(deep_line, "w(x) ");
    append_nested(deep_line, deep, "v_15(x)");
}

#define TEXT(string) (const uint8_t *)(string), strlen(string)
#define REPLY buffer, sizeof buffer, &length

static uint32_t open_table(void) {
    units_entry file = {UNITS_TEXT("main"), TEXT(definitions_text)};
    units_definitions definitions = {UNITS_TEXT("main"), &file, 1, NULL, 0, UNITS_NO_TEXT, NULL, 0};
    return units_open(&table, &definitions);
}

static uint32_t convert(void) {
    units_options options = {.exact = 1, .one_line = 1, .compact = 1};
    return units_convert(&table, TEXT(question), UNITS_TEXT("1"), &options, REPLY);
}

static uint32_t convert_plainly(void) {
    units_options options = {.exact = 1};
    return units_convert(&table, UNITS_TEXT("60 (mile / hour)^2 m"), UNITS_TEXT("kilom^3 / s^2"), &options, REPLY);
}

static uint32_t convert_column(void) {
    units_options options = {.exact = 1};
    units_column column = {UNITS_TEXT("v_16"), UNITS_TEXT("1"), 1, 0};
    return units_convert_column(&table, &column, UNITS_TEXT("1\n1\n"), &options, REPLY);
}

static uint32_t value(void) {
    units_number number;
    return units_value(&table, TEXT(question), &number, REPLY);
}

static uint32_t define(void) { return units_define(&table, TEXT(deep_line), REPLY); }
static uint32_t search(void) { return units_search(&table, UNITS_TEXT("v"), REPLY); }
static uint32_t undo(void) { return units_undo(&table, REPLY); }
static uint32_t redo(void) { return units_redo(&table, REPLY); }
static uint32_t drop(void) { return units_drop(&table, UNITS_TEXT("w()"), REPLY); }
static uint32_t close_table(void) { return units_close(&table); }

static const struct call {
    const char *name;
    uint32_t (*run)(void);
} calls[] = {
    {"open", open_table}, {"plain convert", convert_plainly}, {"convert", convert}, {"value", value},
    {"convert_column", convert_column}, {"define", define}, {"search", search}, {"undo", undo}, {"redo", redo},
    {"drop", drop}, {"close", close_table},
};

static void *run_call(void *at) {
    const struct call *call = at;
    uint32_t status = call->run();
    if (status == UNITS_DONE) {
        passed++;
    } else {
        failed++;
        printf("%s: status %u %.*s\n", call->name, status, (int)(length < 200 ? length : 200), buffer);
    }
    return NULL;
}

/* Runs a call in a thread on the stack, and prints how much of the stack was written to. */
static void measure(const struct call *call) {
    pthread_attr_t attributes;
    pthread_t thread;
    memset(stack, UNUSED, stack_size);
    if (pthread_attr_init(&attributes) || pthread_attr_setstack(&attributes, stack, stack_size)
        || pthread_create(&thread, &attributes, run_call, (void *)call) || pthread_join(thread, NULL))
        abort();
    size_t unused = 0;
    while (unused < stack_size && stack[unused] == UNUSED) unused++;
    printf("    %-14s %8zu bytes\n", call->name, stack_size - unused);
}

int main(int count, char **words) {
    size_t guard = 4096;
    if (count > 1) stack_size = strtoull(words[1], NULL, 0);
    uint8_t *whole = mmap(NULL, guard + stack_size, PROT_READ | PROT_WRITE, MAP_PRIVATE | MAP_ANONYMOUS, -1, 0);
    if (whole == MAP_FAILED || mprotect(whole, guard, PROT_NONE) != 0) return 2;
    stack = whole + guard;
    for (size_t i = 0; i < sizeof shapes / sizeof *shapes; i++) {
        printf("%s\n", shapes[i].name);
        fflush(stdout);
        write_texts(&shapes[i]);
        for (size_t k = 0; k < sizeof calls / sizeof *calls; k++) measure(&calls[k]);
    }
    printf("%d passed, %d failed\n", passed, failed);
    return failed != 0;
}
