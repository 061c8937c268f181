/* Reads DIMACS for elaborate.c and bench/lrat.c: a file, the head of a formula, and one literal after another. PROGRAM, which they define, is
   what a note begins with. */
#include <limits.h>
#include <stdio.h>
#include <stdlib.h>
#include <string.h>

typedef struct { int *items; size_t count, room; } List;

static int variables; // of the formula

static void stop(const char *what, const char *which) {
    fprintf(stderr, PROGRAM ": %s%s\n", what, which);
    exit(2);
}

static void push(List *list, int item) {
    if (list->count == list->room) {
        list->room = list->room ? 2 * list->room : 4;
        list->items = realloc(list->items, list->room * sizeof(int));
        if (!list->items) stop("no memory", "");
    }
    list->items[list->count++] = item;
}

// a file's text, and how long it is
static char *text_of(const char *path, size_t *length) {
    FILE *file = fopen(path, "rb");
    if (!file) stop("can't read ", path);
    fseek(file, 0, SEEK_END);
    long size = ftell(file);
    rewind(file);
    char *text = size < 0 ? NULL : malloc(size + 1);
    if (!text || fread(text, 1, size, file) != (size_t)size) stop("can't read ", path);
    text[size] = 0, *length = size;
    fclose(file);
    return text;
}

// the formula's clauses, after its comments and its head, which says how many variables there are
static char *clauses_of(const char *path) {
    size_t length;
    char *at = text_of(path, &length);
    for (; *at == 'c' || *at == 'p'; at += *at == '\n') {
        if (*at == 'p') sscanf(at, "p cnf %d", &variables);
        at += strcspn(at, "\n");
    }
    return at;
}

// whether more stands here, after white space
static int is_more(char **at) {
    *at += strspn(*at, " \n");
    return **at != 0;
}

// the literal that stands here, or the 0 at the end of a clause
static int literal_at(char **at) {
    char *end;
    long literal = strtol(*at, &end, 10);
    if (end == *at || labs(literal) > variables) stop("no literal of the formula's variables", "");
    *at = end;
    return literal;
}
