/* Tries every call of the library, and every status that a caller can cause. The expected answers were worked out by
   hand. Prints a line for each difference; the last line is `N passed, M failed`. */
#include "units.h"

#include <stdio.h>
#include <stdlib.h>
#include <string.h>

static const char main_file[] =
    "m !\nkg !\ns !\nK !\n"
    "!include sub/length.units\n"
    "!include absent.units\n"
    "kilo- 1000\n"
    "N kg m / s^2\n"
    "bad 2 nothing\n"
    "round rounder\nrounder round\n"
    "negative -1 m\n"
    "square(x) units=[1;m^2] x m^2 ; sqrt(square/m^2)\n"
    "half(x) units=[1;1] domain=[0,10] range=[0,5] x/2 ; half*2\n"
    "oneway(x) units=[1;1] 2 x\n"
    "grows(x) units=[1;1] domain=[0,10] x+1 ; grows-1\n"
    "wrong(x) units=[m;m] x s ; wrong/s\n"
    "gauge[m] 1 2 3 6\n"
    "!unitlist hms ft;inch\n"
    "!var LENGTHS long\n"
    "league 3 mile\n"
    "!endvar\n"
    "!locale en_GB\n"
    "gallon 454609|100000000 m^3\n"
    "!endlocale\n";
static const char length_file[] = "!include inch.units\nft 12 inch\nmile 5280 ft\n";
static const char inch_file[] = "inch 254|10000 m\n";

#define ROOM 4096
static uint8_t buffer[ROOM];
static size_t length;
static int passed, failed;

static void check(int is_right, const char *title) {
    if (is_right) {
        passed++;
    } else {
        failed++;
        printf("differs: %s\n", title);
    }
}

/* Checks a status, and the text in the buffer. */
static void expect(const char *title, uint32_t status, uint32_t expected, const char *text) {
    int is_right = status == expected && length == strlen(text) && memcmp(buffer, text, length) == 0;
    check(is_right, title);
    if (!is_right)
        printf("    %u %.*s, expected %u %s\n", status, (int)(length < ROOM ? length : 0), buffer, expected, text);
}

#define TEXT(string) (const uint8_t *)(string), strlen(string)

static units_options plain = {0}, exact = {.exact = 1, .one_line = 1, .compact = 1};

static void convert(units_table *table, const units_options *options, const char *from, const char *to,
                    uint32_t expected, const char *text) {
    memset(buffer, 'x', sizeof buffer);
    expect(from, units_convert(table, TEXT(from), TEXT(to), options, buffer, sizeof buffer, &length), expected, text);
}

static void value(units_table *table, const char *expression, uint32_t expected, const char *text) {
    units_number number;
    expect(expression, units_value(table, TEXT(expression), &number, buffer, sizeof buffer, &length), expected, text);
}

static units_number number_of(units_table *table, const char *expression) {
    units_number number = {9, 9, 9, 9, 9};
    check(units_value(table, TEXT(expression), &number, buffer, sizeof buffer, &length) == UNITS_DONE, expression);
    return number;
}

static void conversions(units_table *table) {
    convert(table, &exact, "3 ft", "m", UNITS_DONE, "1143|1250\n");
    convert(table, &plain, "10 ft", "m", UNITS_DONE, "\t* 3.048\n\t/ 0.32808399\n");
    units_options four = {.digits = 4, .verbose = 1};
    convert(table, &four, "mile", "m", UNITS_DONE, "\tmile = 1609 m\n\tmile = (1 / 0.0006214) m\n");
    units_options many = {.digits = 36, .one_line = 1, .compact = 1};
    convert(table, &many, "1", "3", UNITS_DONE, "0.333333333333333333333333333333333333\n");
    units_options strict = {.exact = 1, .compact = 1, .one_line = 1, .strict = 1};
    convert(table, &strict, "1/s", "s", UNITS_CONFORMABILITY_ERROR, "conformability error\n1 / s\n1 s\n");
    convert(table, &exact, "5/s", "s", UNITS_DONE, "reciprocal conversion\n1|5\n");
    convert(table, &exact, "64 inch", "ft;inch", UNITS_DONE, "5;4\n");
    convert(table, &exact, "64 inch", "hms", UNITS_DONE, "5;4\n");
    units_options whole = {.exact = 1, .compact = 1, .round = 1};
    convert(table, &whole, "64.4 inch", "hms", UNITS_DONE, "5;4\n");
    convert(table, &exact, "half(3)", "1", UNITS_DONE, "3|2\n");
    convert(table, &exact, "3", "half", UNITS_DONE, "6\n");
    convert(table, &exact, "gauge(2)", "m", UNITS_DONE, "4\n");
    convert(table, &exact, "kilom", "m", UNITS_DONE, "1000\n");
    convert(table, &exact, " 2 m ", "\tm", UNITS_DONE, "2\n");
    convert(table, &exact, "ft", "kg", UNITS_CONFORMABILITY_ERROR, "conformability error\n381|1250 m\n1 kg\n");
    units_options bad = {.digits = 37};
    expect("37 digits", units_convert(table, TEXT("m"), TEXT("m"), &bad, buffer, sizeof buffer, &length),
           UNITS_BAD_OPTIONS, "");
}

static void faults(units_table *table) {
    convert(table, &exact, "2 +", "m", UNITS_SYNTAX_ERROR, "syntax error at 3\n");
    convert(table, &exact, "m", "2 +", UNITS_SYNTAX_ERROR, "syntax error at 3\n");
    convert(table, &exact, "", "m", UNITS_SYNTAX_ERROR, "syntax error at 0\n");
    convert(table, &exact, "yard", "m", UNITS_UNKNOWN_UNIT, "unknown unit: yard\n");
    convert(table, &exact, "bad", "m", UNITS_UNKNOWN_UNIT, "unknown unit: nothing in bad\n");
    convert(table, &exact, "sin(1)", "m", UNITS_REFUSED_FUNCTION, "refused function: sin\n");
    convert(table, &exact, "round", "m", UNITS_CYCLE, "cycle: round -> rounder -> round\n");
    convert(table, &exact, "ft", "negative;inch", UNITS_LIST_UNIT_NOT_POSITIVE, "list unit not positive: 1\n");
    value(table, "1e38 * 1e38", UNITS_OVERFLOW, "overflow");
    value(table, "1/0", UNITS_DIVISION_BY_ZERO, "division by zero");
    value(table, "sqrt(2)", UNITS_NO_EXACT_ROOT, "no exact root");
    value(table, "m + s", UNITS_UNLIKE_SUM, "sum of unlike units: 1 m and 1 s");
    value(table, "2^m", UNITS_EXPONENT_NOT_NUMBER, "exponent is not a number");
    value(table, "m^40000", UNITS_EXPONENT_RANGE, "exponent out of range");
    value(table, "half(11)", UNITS_NOT_IN_DOMAIN, "not in domain: half");
    value(table, "~half(6)", UNITS_NOT_IN_RANGE, "not in range: half");
    value(table, "half(1 m)", UNITS_WRONG_ARGUMENT, "wrong argument: half");
    value(table, "wrong(1 m)", UNITS_WRONG_RESULT, "wrong result: wrong");
    value(table, "~oneway(1)", UNITS_NO_INVERSE, "no inverse: oneway");
    value(table, "gauge(4)", UNITS_OUTSIDE_TABLE, "outside table: gauge");
    value(table, "half", UNITS_ARGUMENT_NEEDED, "argument needed: half");
    char deep[512] = "";
    for (int i = 0; i < 70; i++) strcat(deep, "(");
    strcat(deep, "1");
    for (int i = 0; i < 70; i++) strcat(deep, ")");
    value(table, deep, UNITS_NESTED_TOO_DEEP, "nested too deep");
    char numeral[1200];
    memset(numeral, '1', sizeof numeral - 1);
    numeral[sizeof numeral - 1] = 0;
    value(table, numeral, UNITS_NUMERAL_TOO_LONG, "numeral too long");
}

static void values(units_table *table) {
    units_number n = number_of(table, "-2 N/3");
    check(n.negative == 1 && n.numerator_high == 0 && n.numerator_low == 2 && n.denominator_high == 0
          && n.denominator_low == 3, "the number of -2 N/3");
    expect("-2 N/3", UNITS_DONE, UNITS_DONE, "kg m / s^2");
    n = number_of(table, "2^126 / 3^70");
    check(n.negative == 0 && n.numerator_high == (uint64_t)1 << 62 && n.numerator_low == 0
          && n.denominator_high == 0x7b6a43a7ef90 && n.denominator_low == 0x1fd29f05f9e837d9,
          "the number of 2^126 / 3^70");
    expect("2^126 / 3^70", UNITS_DONE, UNITS_DONE, "");
    n = number_of(table, "0");
    check(n.negative == 0 && n.numerator_low == 0 && n.denominator_low == 1, "the number of 0");
    value(table, "1/s", UNITS_DONE, "/ s");
    value(table, "m^(1|2)", UNITS_DONE, "m^1|2");
}

/* Converts a column of a text and compares the rows. */
static void convert_column(units_table *table, units_column column, const units_options *options, const char *text,
                           uint32_t expected, const char *rows) {
    memset(buffer, 'x', sizeof buffer);
    expect(text, units_convert_column(table, &column, TEXT(text), options, buffer, sizeof buffer, &length), expected,
           rows);
}

static void columns(units_table *table) {
    units_column first = {TEXT("ft"), TEXT("inch"), 1, 0}, second = {TEXT("ft"), TEXT("inch"), 2, 1};
    convert_column(table, first, &plain, "", UNITS_DONE, "");
    convert_column(table, first, &plain, "1\n2.5\n-3", UNITS_DONE, "12\n30\n-36\n");
    convert_column(table, first, &exact, "0.01\r\n 1e1 \n", UNITS_DONE, "3|25\n120\n");
    convert_column(table, second, &plain, "3,4\n5,6,\"7,8\"\n9\n", UNITS_DONE, "3,4\n5,72,\"7,8\"\n9\n");
    convert_column(table, first, &plain, "1\n+2\n3\n", UNITS_CELL_ERROR, "12\nerror: not a number\n36\n");
    first.header = 9;
    convert_column(table, first, &plain, "7\n7\n", UNITS_DONE, "7\n84\n");
    first.header = 0;
    units_options four = {.digits = 4}, whole = {.round = 1};
    convert_column(table, (units_column){TEXT("1"), TEXT("3"), 1, 0}, &four, "1\n", UNITS_DONE, "0.3333\n");
    convert_column(table, (units_column){TEXT("inch"), TEXT("hms"), 1, 0}, &whole, "64.4\n", UNITS_DONE, "5;4\n");
    convert_column(table, (units_column){TEXT("half"), TEXT("1"), 1, 0}, &exact, "3\n11\n", UNITS_CELL_ERROR,
                   "3|2\nerror: not in domain: half\n");
    convert_column(table, (units_column){TEXT("ft"), TEXT("s"), 1, 0}, &plain, "1\n", UNITS_CELL_ERROR,
                   "error: conformability error\n");
    convert_column(table, (units_column){TEXT("yard"), TEXT("m"), 1, 0}, &plain, "1\n", UNITS_CELL_ERROR,
                   "error: unknown unit: yard\n");
    first.number = SIZE_MAX;
    convert_column(table, first, &plain, "1\n", UNITS_DONE, "1\n");
    first.number = 0;
    convert_column(table, first, &plain, "1\n", UNITS_BAD_OPTIONS, "");
    units_options bad = {.digits = 37};
    convert_column(table, second, &bad, "1\n", UNITS_BAD_OPTIONS, "");
    first.number = 1;
    check(units_convert_column(table, &first, TEXT("1\n2\n"), &plain, buffer, 5, &length) == UNITS_NO_ROOM
          && length == 6, "a column in a short buffer");
    check(units_convert_column(table, &first, UNITS_NO_TEXT, &plain, buffer, 0, &length) == UNITS_DONE && length == 0,
          "a column of no records in a buffer of no size");
    /* More records than the program writes in one block. */
    enum { RECORDS = 5000 };
    static char text[2 * RECORDS + 1];
    static uint8_t rows[3 * RECORDS];
    for (int i = 0; i < RECORDS; i++) memcpy(text + 2 * i, "1\n", 2);
    int is_right = units_convert_column(table, &first, TEXT(text), &plain, rows, sizeof rows, &length) == UNITS_DONE
        && length == sizeof rows;
    for (int i = 0; i < RECORDS; i++) is_right &= memcmp(rows + 3 * i, "12\n", 3) == 0;
    check(is_right, "a column of many records");
}

static void edits(units_table *table) {
#define EDIT(call, word, expected, text) \
    expect(#call " " word, units_##call(table, TEXT(word), buffer, sizeof buffer, &length), expected, text)
#define TURN(call, expected, text) expect(#call, units_##call(table, buffer, sizeof buffer, &length), expected, text)
    TURN(undo, UNITS_NOTHING_TO_UNDO, "nothing to undo");
    TURN(redo, UNITS_NOTHING_TO_REDO, "nothing to redo");
    EDIT(define, "span 9 inch", UNITS_DONE, "");
    convert(table, &exact, "2 span", "inch", UNITS_DONE, "18\n");
    EDIT(define, "span 10 inch", UNITS_DONE, "");
    convert(table, &exact, "2 span", "inch", UNITS_DONE, "20\n");
    TURN(undo, UNITS_DONE, "");
    convert(table, &exact, "2 span", "inch", UNITS_DONE, "18\n");
    TURN(redo, UNITS_DONE, "");
    TURN(redo, UNITS_NOTHING_TO_REDO, "nothing to redo");
    EDIT(drop, "span", UNITS_DONE, "");
    convert(table, &exact, "2 span", "inch", UNITS_DONE, "18\n");
    EDIT(drop, "span", UNITS_DONE, "");
    EDIT(drop, "span", UNITS_NO_SUCH_DEFINITION, "no such definition: span");
    EDIT(drop, "2 span", UNITS_BAD_KEY, "bad key: 2 span");
    convert(table, &exact, "2 span", "inch", UNITS_UNKNOWN_UNIT, "unknown unit: span\n");
    for (int i = 0; i < 4; i++) TURN(undo, UNITS_DONE, "");
    TURN(undo, UNITS_NOTHING_TO_UNDO, "nothing to undo");
    EDIT(define, "2x 3 m", UNITS_BAD_NAME, "bad name: 2x");
    EDIT(define, "x", UNITS_BAD_DEFINITION, "bad definition");
    EDIT(define, "x[m] 1 2 1 3", UNITS_BAD_TABLE, "bad table");
    EDIT(define, "x 2 +", UNITS_SYNTAX_ERROR, "syntax error at 3");
    EDIT(search, "mil", UNITS_DONE, "\tmile\t5280 ft\n");
    EDIT(search, "zzz", UNITS_DONE, "no matching names\n");
#undef EDIT
#undef TURN
}

/* Functions that call each other, one level deeper than allowed. */
static void deep_calls(units_table *table) {
    check(units_define(table, TEXT("f_1(x) x"), buffer, sizeof buffer, &length) == UNITS_DONE, "f_1");
    for (int i = 2; i <= 17; i++) {
        char line[64];
        snprintf(line, sizeof line, "f_%d(x) f_%d(x)", i, i - 1);
        check(units_define(table, TEXT(line), buffer, sizeof buffer, &length) == UNITS_DONE, line);
    }
    value(table, "f_16(1)", UNITS_DONE, "");
    value(table, "f_17(1)", UNITS_CALLS_TOO_DEEP, "calls too deep: f_17");
}

/* Buffers that are too short: the length is set, and nothing else is written. */
static void rooms(units_table *table) {
    uint8_t small[4] = "wxyz";
    check(units_convert(table, TEXT("3 ft"), TEXT("m"), &exact, small, 3, &length) == UNITS_NO_ROOM && length == 10
          && memcmp(small, "wxyz", 4) == 0, "a short buffer");
    check(units_convert(table, TEXT("3 ft"), TEXT("m"), &exact, buffer, 10, &length) == UNITS_DONE && length == 10,
          "a buffer that just fits");
    check(units_convert(table, TEXT("3 ft"), TEXT("m"), &exact, buffer, 0, &length) == UNITS_NO_ROOM && length == 10,
          "a buffer of no size");
    units_number n = {0};
    check(units_value(table, TEXT("2 ft"), &n, buffer, 0, &length) == UNITS_NO_ROOM && n.numerator_low == 381
          && n.denominator_low == 625, "a value in a buffer of no size");
    check(units_convert(table, TEXT("yard"), TEXT("m"), &exact, buffer, 18, &length) == UNITS_NO_ROOM
          && length == strlen("unknown unit: yard\n"), "the text of a fault that is too long");
    check(units_convert(table, (const uint8_t *)"a\0b", 3, TEXT("m"), &exact, buffer, sizeof buffer, &length)
          == UNITS_SYNTAX_ERROR, "a text with a zero byte");
}

/* Texts that the program reads otherwise, because they are more than an expression there. */
static void session_texts(units_table *table) {
    convert(table, &exact, "ft", " ", UNITS_SYNTAX_ERROR, "syntax error at 0\n");
    convert(table, &exact, "ft", "?", UNITS_UNKNOWN_UNIT, "unknown unit: ?\n");
    convert(table, &exact, "ft # x", "m", UNITS_SYNTAX_ERROR, "syntax error at 3\n");
    convert(table, &exact, ":undo", "m", UNITS_UNKNOWN_UNIT, "unknown unit: :undo\n");
    expect("define #", units_define(table, TEXT("x 3 m # note"), buffer, sizeof buffer, &length), UNITS_SYNTAX_ERROR,
           "syntax error at 4");
    expect("drop #", units_drop(table, TEXT("ft # x"), buffer, sizeof buffer, &length), UNITS_BAD_KEY,
           "bad key: ft # x");
    expect("search #", units_search(table, TEXT("mil#e"), buffer, sizeof buffer, &length), UNITS_DONE,
           "no matching names\n");
}

/* Whether each byte of the buffer from this place on is as `convert` has filled it. */
static int is_unwritten(size_t from) {
    while (from < ROOM && buffer[from] == 'x') from++;
    return from == ROOM;
}

/* What a call leaves after the text, in a buffer that is too short, and in none. */
static void untouched_memory(units_table *table) {
    units_table closed = UNITS_TABLE;
    units_options bad = {.digits = 37};
    convert(table, &exact, "3 ft", "m", UNITS_DONE, "1143|1250\n");
    check(is_unwritten(10), "the bytes after a text");
    convert(table, &exact, "yard", "m", UNITS_UNKNOWN_UNIT, "unknown unit: yard\n");
    check(is_unwritten(19), "the bytes after a fault");
    convert(table, &bad, "m", "m", UNITS_BAD_OPTIONS, "");
    check(is_unwritten(0), "the buffer after bad options");
    convert(&closed, &exact, "m", "m", UNITS_CLOSED, "");
    check(is_unwritten(0), "the buffer of a closed table");
    uint32_t status = units_convert(table, TEXT("3 ft"), TEXT("m"), &exact, buffer, 9, &length);
    check(status == UNITS_NO_ROOM && length == 10 && is_unwritten(0), "a buffer that is too short by one byte");
    status = units_convert(table, TEXT("3 ft"), TEXT("m"), &exact, NULL, 0, &length);
    check(status == UNITS_NO_ROOM && length == 10, "the length of a reply");
    status = units_search(table, TEXT("mil"), NULL, 0, &length);
    check(status == UNITS_NO_ROOM && length == strlen("\tmile\t5280 ft\n"), "the length of a search");
    status = units_define(table, TEXT("x 3 m"), NULL, 0, &length);
    check(status == UNITS_DONE && length == 0, "an edit without a buffer");
    status = units_undo(table, NULL, 0, &length);
    check(status == UNITS_DONE && length == 0, "an undo without a buffer");
    units_number number = {9, 9, 9, 9, 9};
    status = units_value(table, TEXT("1/0"), &number, NULL, 0, &length);
    check(status == UNITS_NO_ROOM && length == 16 && number.negative == 9, "the number of a fault");
}

/* The length of the text of each call that gives one. */
static void lengths(units_table *table) {
    units_column column = {TEXT("ft"), TEXT("inch"), 1, 0};
    units_number number;
#define LENGTH(call, expected_status, expected, ...) \
    length = 99; \
    check(units_##call(table, __VA_ARGS__, NULL, 0, &length) == expected_status && length == (expected), \
          "the length of " #call)
    LENGTH(convert, UNITS_NO_ROOM, 10, TEXT("3 ft"), TEXT("m"), &exact);
    LENGTH(convert_column, UNITS_NO_ROOM, 6, &column, TEXT("1\n2\n"), &plain);
    LENGTH(value, UNITS_NO_ROOM, 1, TEXT("ft"), &number);
    LENGTH(search, UNITS_NO_ROOM, strlen("\tmile\t5280 ft\n"), TEXT("mil"));
    LENGTH(define, UNITS_NO_ROOM, strlen("bad definition"), TEXT("x"));
    LENGTH(drop, UNITS_NO_ROOM, strlen("bad key: 2 span"), TEXT("2 span"));
#undef LENGTH
    while (units_undo(table, NULL, 0, &length) == UNITS_DONE) check(length == 0, "the length of an undo");
    check(length == strlen("nothing to undo"), "the length of a refused undo");
    while (units_redo(table, NULL, 0, &length) == UNITS_DONE) check(length == 0, "the length of a redo");
    check(length == strlen("nothing to redo"), "the length of a refused redo");
}

/* The version of the library is that of its header, as a text and as a number. */
static void version(void) {
    char text[32];
    uint32_t number = units_version_number();
    snprintf(text, sizeof text, "%u.%u.%u", number / 1000000, number / 1000 % 1000, number % 1000);
    check(strcmp(units_version(), UNITS_VERSION) == 0 && strcmp(text, UNITS_VERSION) == 0
          && number == UNITS_VERSION_NUMBER, "the version");
}

static units_entry entry(const char *name, const char *content) {
    return (units_entry){(const uint8_t *)name, strlen(name), (const uint8_t *)content, strlen(content)};
}

static void openings(void) {
    units_entry files[] = {entry("main", main_file), entry("sub/length.units", "nonsense"),
                           entry("sub/length.units", length_file), entry("sub/inch.units", inch_file)};
    units_entry variables[] = {entry("LENGTHS", "short"), entry("LENGTHS", "long")};
    units_definitions definitions = {TEXT("main"), files, 4, variables, 2, TEXT("en_GB"), TEXT("a seed")};
    units_table table = UNITS_TABLE;
    check(units_close(&table) == UNITS_CLOSED, "to close a closed table");
    check(units_close(NULL) == UNITS_CLOSED, "to close no table");
    expect("a closed table", units_convert(&table, TEXT("m"), TEXT("m"), &exact, buffer, sizeof buffer, &length),
           UNITS_CLOSED, "");
    convert_column(&table, (units_column){TEXT("m"), TEXT("m"), 1, 0}, &plain, "1", UNITS_CLOSED, "");
    check(units_open(&table, &definitions) == UNITS_DONE, "to open");
    check(units_open(&table, &definitions) == UNITS_ALREADY_OPEN, "to open an open table");
    convert(&table, &exact, "league", "ft", UNITS_DONE, "15840\n");
    convert(&table, &exact, "gallon", "m^3", UNITS_DONE, "454609|100000000\n");
    conversions(&table);
    faults(&table);
    values(&table);
    columns(&table);
    edits(&table);
    rooms(&table);
    session_texts(&table);
    untouched_memory(&table);
    lengths(&table);
    deep_calls(&table);
    check(units_close(&table) == UNITS_DONE, "to close");
    check(units_close(&table) == UNITS_CLOSED, "to close again");
    definitions.variables_count = 0;
    definitions.locale = (const uint8_t *)"en_US";
    check(units_open(&table, &definitions) == UNITS_DONE, "to open again");
    convert(&table, &exact, "league", "ft", UNITS_UNKNOWN_UNIT, "unknown unit: league\n");
    convert(&table, &exact, "gallon", "m^3", UNITS_UNKNOWN_UNIT, "unknown unit: gallon\n");
    units_close(&table);
}

static void refused_openings(void) {
    units_entry file = entry("a", "m !\n");
    units_definitions definitions = {TEXT("b"), &file, 1, NULL, 0, UNITS_NO_TEXT, UNITS_NO_TEXT};
    units_table table = UNITS_TABLE;
    check(units_open(&table, &definitions) == UNITS_NO_SUCH_FILE, "no such file");
    definitions = (units_definitions){TEXT("a"), NULL, 0, NULL, 0, UNITS_NO_TEXT, UNITS_NO_TEXT};
    check(units_open(&table, &definitions) == UNITS_NO_SUCH_FILE, "no files");
    static char longest[16777218];
    memset(longest, '\n', sizeof longest - 1);
    file = entry("a", longest);
    definitions = (units_definitions){TEXT("a"), &file, 1, NULL, 0, UNITS_NO_TEXT, UNITS_NO_TEXT};
    check(units_open(&table, &definitions) == UNITS_FILE_TOO_LONG, "a file that is too long");
    file.content_length = 16777216;
    check(units_open(&table, &definitions) == UNITS_DONE, "a file that is just short enough");
    check(units_close(&table) == UNITS_DONE, "to close it");
    enum { LINES = 100001 };
    static char many[6 * LINES + 1];
    for (int i = 0; i < LINES; i++) memcpy(many + 6 * i, "a 1 m\n", 6);
    file = entry("a", many);
    check(units_open(&table, &definitions) == UNITS_DECK_FULL, "too many lines");
    check(units_close(&table) == UNITS_CLOSED, "nothing was opened");
}

int main(void) {
    version();
    openings();
    refused_openings();
    printf("%d passed, %d failed\n", passed, failed);
    return failed != 0;
}
