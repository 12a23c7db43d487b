/* SPDX-License-Identifier: MIT OR Apache-2.0 */
/* units: exact unit conversion.

   A program opens a table over definitions in memory, asks it any number of questions, and closes it:

       units_table table = UNITS_TABLE;
       units_entry file = {UNITS_TEXT("my.units"), UNITS_TEXT("m !\nft 3048|10000 m\n")};
       units_definitions definitions = {UNITS_TEXT("my.units"), &file, 1, NULL, 0, UNITS_TEXT("en_US"), NULL, 0};
       units_options options = {.exact = 1, .one_line = 1, .compact = 1};
       uint8_t reply[256];
       size_t length;
       if (units_open(&table, &definitions) == UNITS_DONE &&
           units_convert(&table, UNITS_TEXT("3 ft"), UNITS_TEXT("m"), &options, reply, sizeof reply, &length)
               == UNITS_DONE)
           fwrite(reply, 1, length, stdout);
       units_close(&table);

   Texts are bytes with a length; they need no zero at the end. The library opens no file, ends no process, prints
   nothing and keeps nothing outside the table. It needs malloc, realloc, free, memcpy, memmove and memset.

   The caller has to guarantee:
   - No pointer is null, except the table of units_close, `buffer` if `size` is 0, and a pointer of a units_definitions
     to no bytes or entries. Memory that a call writes overlaps nothing else that the call gets.
   - A table begins as UNITS_TABLE, or with all bytes zero. It is not copied or moved while it is open.
   - A table is used by one thread at a time. If threads take turns, a lock orders their calls. Different tables may be
     used by different threads at the same time.
   - The calling thread has at least UNITS_STACK_SIZE bytes of stack left. Only functions that call one another, each
     with a deeply nested expression, take so much. All other calls, also over such definitions, take less than 192 KiB,
     and a conversion of plain units less than 32 KiB.
   - No call is made from a signal handler, or in the child of a fork that was made during a call. */
#ifndef UNITS_H
#define UNITS_H

#include <stddef.h>
#include <stdint.h>

#ifdef __cplusplus
extern "C" {
#endif

/* The version of this header: as a text, and as a number, 1,000,000 * major + 1,000 * minor + patch. */
#define UNITS_VERSION "1.1.0"
#define UNITS_VERSION_NUMBER 1001000

/* The stack that a call may take, in bytes. */
#define UNITS_STACK_SIZE 1048576

/* The result of a call. Values that are not listed are never returned by this version; later versions may add some. */
enum units_status {
    UNITS_DONE = 0,
    UNITS_NO_MEMORY = 1,      /* no memory was left; the table is as before and can be used further */
    UNITS_NO_ROOM = 2,        /* the buffer is too short; `length` has the size that is needed */
    UNITS_CLOSED = 3,         /* the table is not open */
    UNITS_ALREADY_OPEN = 4,   /* the table is open already; it was not changed */
    UNITS_BAD_OPTIONS = 5,    /* `digits` is above 36, or the number of a column is 0 */

    /* of definitions */
    UNITS_NO_SUCH_FILE = 16,
    UNITS_FILE_TOO_LONG = 17, /* above 16,777,216 bytes */
    UNITS_READ_FAILED = 18,   /* reserved: files in memory do not fail */
    UNITS_DECK_FULL = 19,     /* above 100,000 definition lines, or their total size is above the limit */
    UNITS_BAD_NAME = 20,
    UNITS_BAD_DEFINITION = 21,
    UNITS_BAD_TABLE = 22,
    UNITS_BAD_KEY = 23,
    UNITS_NO_SUCH_DEFINITION = 24,
    UNITS_NOTHING_TO_UNDO = 25,
    UNITS_NOTHING_TO_REDO = 26,

    /* of expressions and conversions */
    UNITS_SYNTAX_ERROR = 32,
    UNITS_NUMERAL_TOO_LONG = 33,
    UNITS_NESTED_TOO_DEEP = 34,
    UNITS_UNKNOWN_UNIT = 35,
    UNITS_REFUSED_FUNCTION = 36,
    UNITS_CYCLE = 37,
    UNITS_OVERFLOW = 38,
    UNITS_DIVISION_BY_ZERO = 39,
    UNITS_NO_EXACT_ROOT = 40,
    UNITS_UNLIKE_SUM = 41,
    UNITS_EXPONENT_NOT_NUMBER = 42,
    UNITS_EXPONENT_RANGE = 43,
    UNITS_NOT_IN_DOMAIN = 44,
    UNITS_NOT_IN_RANGE = 45,
    UNITS_WRONG_ARGUMENT = 46,
    UNITS_WRONG_RESULT = 47,
    UNITS_NO_INVERSE = 48,
    UNITS_OUTSIDE_TABLE = 49,
    UNITS_ARGUMENT_NEEDED = 50,
    UNITS_CALLS_TOO_DEEP = 51,
    UNITS_LIST_UNIT_NOT_POSITIVE = 52,
    UNITS_CONFORMABILITY_ERROR = 53,

    /* of columns */
    UNITS_CELL_ERROR = 54 /* a cell of the column is an error; the text has all rows */
};

/* A unit table, open or closed. The members are private. */
typedef struct units_table {
    uint64_t state;
    void *content;
} units_table;

#define UNITS_TABLE {0, NULL}

/* The two arguments of a text: its bytes and their number. UNITS_TEXT takes a string literal. */
#define UNITS_TEXT(literal) (const uint8_t *)("" literal), sizeof(literal) - 1
#define UNITS_NO_TEXT (const uint8_t *)"", 0

/* A file or a variable: its name, and the bytes of the file or the value of the variable. */
typedef struct units_entry {
    const uint8_t *name;
    size_t name_length;
    const uint8_t *content;
    size_t content_length;
} units_entry;

/* The definitions of a table. Of two entries with the same name the last one counts. No reply depends on the seed: give
   random bytes if the definitions come from someone who may choose names that collide in a hash table, and none
   otherwise. */
typedef struct units_definitions {
    const uint8_t *main; /* the name of the file to read */
    size_t main_length;
    const units_entry *files; /* that file and the files that it includes */
    size_t files_count;
    const units_entry *variables; /* for the lines !var and !varnot */
    size_t variables_count;
    const uint8_t *locale; /* for the lines !locale, such as en_US */
    size_t locale_length;
    const uint8_t *seed; /* for the hash tables, such as 16 bytes of getrandom(), or NULL */
    size_t seed_length;
} units_definitions;

/* The form of a reply. A flag is set by any value but 0. */
typedef struct units_options {
    uint8_t digits;   /* significant digits, from 1 to 36; 0 asks for 8 */
    uint8_t exact;    /* numbers as n or n|d; the digits have no effect */
    uint8_t strict;   /* no reciprocal conversion */
    uint8_t one_line; /* only the first line of a linear conversion */
    uint8_t compact;  /* no tab and no signs; lists are joined by ; */
    uint8_t round;    /* the last count of a list is rounded */
    uint8_t verbose;  /* the reply repeats FROM and TO; without effect if compact is set */
} units_options;

/* A column of a text of records, and the units to convert its fields from and to. */
typedef struct units_column {
    const uint8_t *from;
    size_t from_length;
    const uint8_t *to;
    size_t to_length;
    size_t number;  /* of the column, from 1 */
    uint8_t header; /* unless it is 0, the first record is a header, which is copied */
} units_column;

/* A fraction in lowest terms; the denominator is at least 1. Each half has at most 127 bits. */
typedef struct units_number {
    uint64_t negative; /* 1 if the number is below 0, else 0 */
    uint64_t numerator_high;
    uint64_t numerator_low;
    uint64_t denominator_high;
    uint64_t denominator_low;
} units_number;

/* Each call below with `buffer`, `size` and `length` puts a text into the buffer and its length into `length`, and writes
   nothing after the text. After a fault the text is the text of the fault. If the buffer is too short, the call returns
   UNITS_NO_ROOM, `length` is the size that it needs, and the buffer is as before; an edit is made all the same. So a
   call with NULL and 0 asks for the length. After UNITS_NO_MEMORY, UNITS_CLOSED and UNITS_BAD_OPTIONS `length` is 0 and
   the buffer is as before. */

/* Opens a closed table. Returns UNITS_DONE, UNITS_ALREADY_OPEN, UNITS_NO_SUCH_FILE (no entry has the name `main`),
   UNITS_FILE_TOO_LONG, UNITS_DECK_FULL or UNITS_NO_MEMORY; after any but the first the table is as before. Included
   files that are absent and lines with mistakes are skipped, as by the program. The library keeps no pointer to the
   definitions. */
uint32_t units_open(units_table *table, const units_definitions *definitions);

/* Closes a table and frees its memory. Returns UNITS_DONE, or UNITS_CLOSED if it was not open. NULL is no open table, so
   a call with it does nothing. */
uint32_t units_close(units_table *table);

/* Converts: the text is the reply of the program to FROM and TO, with its line feeds. Both are expressions and nothing
   else: `#` begins no comment, `?` is no question, and a blank TO, which asks the program for the definition of FROM, is
   a syntax error. Returns UNITS_DONE, UNITS_CONFORMABILITY_ERROR, UNITS_BAD_OPTIONS or the fault. */
uint32_t units_convert(units_table *table, const uint8_t *from, size_t from_length, const uint8_t *to,
                       size_t to_length, const units_options *options, uint8_t *buffer, size_t size, size_t *length);

/* Converts a column of a text of records, such as a column of a CSV file or one number in each line, as the program's
   --column does: the text is all records in order, each with its number in the column converted, or with "error: " and
   the fault in its place. A record without that column stays as it is. Of the options, `digits`, `exact` and `round`
   have an effect. One call over many records takes less time than a call of units_convert for each. Returns UNITS_DONE,
   UNITS_CELL_ERROR or UNITS_BAD_OPTIONS. After UNITS_NO_ROOM a second call converts all again; a buffer that is too
   long costs nothing. */
uint32_t units_convert_column(units_table *table, const units_column *column, const uint8_t *text, size_t text_length,
                              const units_options *options, uint8_t *buffer, size_t size, size_t *length);

/* Evaluates an expression: `number` is its number in terms of base units, and the text its dimension, such as
   "kg m^2 / s^2", which is empty for a plain number. `number` is set also if the status is UNITS_NO_ROOM, unless the
   text is that of a fault. */
uint32_t units_value(units_table *table, const uint8_t *expression, size_t expression_length, units_number *number,
                     uint8_t *buffer, size_t size, size_t *length);

/* Lists the definitions whose names contain a text, one in a line, as the program's `search`. Each byte of the text
   counts, also blanks and `#`; the empty text is in each name. Returns UNITS_DONE. */
uint32_t units_search(units_table *table, const uint8_t *text, size_t text_length, uint8_t *buffer, size_t size,
                      size_t *length);

/* Adds a definition line, as the program's `:define`, but `#` begins no comment. Returns UNITS_DONE or the fault. */
uint32_t units_define(units_table *table, const uint8_t *line, size_t line_length, uint8_t *buffer, size_t size,
                      size_t *length);

/* Removes the last active definition of a key, written as for the program's `:drop`: `ft`, `kilo-`, `tempF()` or
   `!unitlist hms`, without blanks around it. Returns UNITS_DONE, UNITS_BAD_KEY or UNITS_NO_SUCH_DEFINITION. */
uint32_t units_drop(units_table *table, const uint8_t *key, size_t key_length, uint8_t *buffer, size_t size,
                    size_t *length);

/* Undoes the last edit, and redoes the last undone edit. Returns UNITS_DONE, UNITS_NOTHING_TO_UNDO or
   UNITS_NOTHING_TO_REDO. */
uint32_t units_undo(units_table *table, uint8_t *buffer, size_t size, size_t *length);
uint32_t units_redo(units_table *table, uint8_t *buffer, size_t size, size_t *length);

/* The version of the library, which may be newer than the header: UNITS_VERSION and UNITS_VERSION_NUMBER of its own
   header. */
const char *units_version(void);
uint32_t units_version_number(void);

#ifdef __cplusplus
}
#endif

#endif
