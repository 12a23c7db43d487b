// Compares the look-up of variables that tools/release/static/musl.c adds with a look into the environment itself, in a
// random order, with room for the text or too little. variables_test SEED
#include <assert.h>
#include <stdio.h>
#include <stdlib.h>
#include <string.h>
#include <sys/types.h>

ssize_t static_env_at(size_t i, char *to, size_t room);

enum { VARIABLES = 300, ROOM = 64, CALLS = 100000 };

extern char **environ;

static ssize_t expected(size_t count, size_t i, size_t room) {
    if (i >= count) return -1;
    size_t length = strlen(environ[i]);
    return length > room ? -2 : (ssize_t)length;
}

static void compare(size_t count, size_t i, size_t room) {
    char text[ROOM];
    ssize_t length = static_env_at(i, text, room);
    assert(length == expected(count, i, room));
    if (length > 0) assert(memcmp(text, environ[i], (size_t)length) == 0);
}

int main(int count, char **words) {
    static char texts[VARIABLES][ROOM];
    static char *variables[VARIABLES + 1];
    assert(count == 2);
    srand((unsigned)atoi(words[1]));
    for (size_t i = 0; i < VARIABLES; i++) {
        snprintf(texts[i], ROOM, "NAME_%zu=%.*s", i, rand() % 40, "a value of at most forty bytes, or none");
        variables[i] = texts[i];
    }
    variables[0] = "";
    environ = variables;
    for (size_t i = 0; i <= VARIABLES; i++) compare(VARIABLES, i, ROOM);
    for (int call = 0; call < CALLS; call++) {
        compare(VARIABLES, (size_t)rand() % (VARIABLES + 20), (size_t)rand() % ROOM);
    }
    compare(VARIABLES, (size_t)-1, ROOM);
    environ = NULL;
    compare(0, 0, ROOM);
    puts("variables agree");
    return 0;
}
