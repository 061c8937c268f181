/* Reads a netlist with its #tsc lines for evaluate.c and inject.c: its cells, which are latches and nodes, the order in which they settle,
   and its plan. A name of a net is looked for from the latest on, since most are read near where they are driven. */
#include <stdint.h>
#include <stdio.h>
#include <stdlib.h>
#include <string.h>

#ifndef TOOL
#define TOOL "evaluate"
#endif

enum { PINS = 256, GROUPS = 64 };
/* a latch or a node: the net that it drives, the nets that it reads, the rows of its cover, and whether these are the on-set; and whether a
   latch holds 1 first */
typedef struct { int latch, net, pins, *reads, rows, on, first; char **cubes; } cell;
typedef struct { int *items, count; } list;

static char **names, code, **states; /* of nets; the first letter of the code; the words of the states */
static int net_count, cell_count, state_count, group_count;
static cell *cells; /* in text order, latches before nodes */
static int *order;  /* the cells, each behind those that it reads */
static list inputs, outputs, checks, groups[GROUPS], watched; /* watched: what a line `#tsc watch` names */

static void stop(const char *what, const char *which)
{
    fprintf(stderr, TOOL ": %s %s\n", what, which);
    exit(2);
}

/* the items with room for one more: there is room up to the next power of two */
static void *grown(void *items, size_t count, size_t size)
{
    if (!(count & (count - 1)) && !(items = realloc(items, (count ? 2 * count : 1) * size)))
        stop("out of memory", "");
    return items;
}

static void push(list *l, int item)
{
    l->items = grown(l->items, l->count, sizeof(int));
    l->items[l->count++] = item;
}

/* the net of this name, a new one if there was none */
static int net_of(char *name)
{
    for (int net = net_count; net-- > 0;)
        if (!strcmp(names[net], name))
            return net;
    names = grown(names, net_count, sizeof *names);
    names[net_count] = name;
    return net_count++;
}

static void plan_line(char **word, int count)
{
    if (count > 1 && !strcmp(word[0], "state")) {
        states = grown(states, state_count, sizeof *states);
        states[state_count++] = word[1];
    } else if (!strcmp(word[0], "watch")) {
        for (int i = 1; i < count; i++)
            push(&watched, net_of(word[i]));
    } else if (!strcmp(word[0], "group") || !strcmp(word[0], "check")) {
        if (group_count == GROUPS)
            stop("too many groups", "");
        list *l = word[0][0] == 'g' ? &groups[group_count++] : &checks;
        for (int i = 1; i < count; i++)
            push(l, net_of(word[i]));
    } else if (count > 1) {
        code = word[1][0];
    }
}

static void new_cell(char **word, int count)
{
    int latch = word[0][1] == 'l', pins = latch ? 1 : count - 2;
    if (count < (latch ? 3 : 2) || pins > PINS)
        stop("too few or too many words:", word[0]);
    cells = grown(cells, cell_count, sizeof *cells);
    cells[cell_count] = (cell){.latch = latch, .on = 1, .pins = pins, .net = net_of(word[1 + pins]), .reads = calloc(pins + 1, sizeof(int))};
    for (int i = 0; i < pins; i++)
        cells[cell_count].reads[i] = net_of(word[1 + i]);
    cells[cell_count].first = latch && !strcmp(word[count - 1], "1");
    cell_count++;
}

static void blif_line(char **word, int count)
{
    cell *c = cell_count ? &cells[cell_count - 1] : NULL;
    if (!strcmp(word[0], ".inputs") || !strcmp(word[0], ".outputs")) {
        for (int i = 1; i < count; i++)
            push(word[0][1] == 'i' ? &inputs : &outputs, net_of(word[i]));
    } else if (!strcmp(word[0], ".names") || !strcmp(word[0], ".latch")) {
        new_cell(word, count);
    } else if (word[0][0] != '.' && c && !c->latch) {
        if (count != (c->pins ? 2 : 1) || (c->pins && strlen(word[0]) != (size_t)c->pins))
            stop("a row of the wrong width:", word[0]);
        c->on = word[count - 1][0] == '1';
        c->cubes = grown(c->cubes, c->rows, sizeof *c->cubes);
        c->cubes[c->rows++] = word[0];
    } else if (strcmp(word[0], ".model") && strcmp(word[0], ".end")) {
        stop("not known:", word[0]);
    }
}

/* each line without its comment, joined with the next where it ends with a backslash */
static void read_netlist(void)
{
    size_t length = 0, room = 1 << 16, end;
    char *text = malloc(room), **word = NULL, *next;
    while (length += fread(text + length, 1, room - length - 1, stdin), length == room - 1)
        text = realloc(text, room *= 2);
    text[length] = 0;
    int joined = 0, count = 0;
    for (char *at = text; at; at = next) {
        if ((next = strchr(at, '\n')))
            *next++ = 0;
        int plan = !joined && !strncmp(at, "#tsc ", 5);
        at[end = strcspn(at, plan ? "\r" : "#\r")] = 0;
        if ((joined = !plan && end && at[end - 1] == '\\'))
            at[end - 1] = 0;
        for (char *w = strtok(plan ? at + 5 : at, " \t"); w; w = strtok(NULL, " \t")) {
            word = grown(word, count, sizeof *word);
            word[count++] = w;
        }
        if (joined || !count)
            continue;
        (plan ? plan_line : blif_line)(word, count);
        count = 0;
    }
}

static void sort_cells(void)
{
    cell *sorted = calloc(cell_count + 1, sizeof *sorted);
    int at = 0, placed = 0;
    for (int latch = 1; latch >= 0; latch--)
        for (int c = 0; c < cell_count; c++)
            if (cells[c].latch == latch)
                sorted[at++] = cells[c];
    cells = sorted;
    order = calloc(cell_count + 1, sizeof *order);
    char *driven = calloc(net_count + 1, 1);
    for (int i = 0; i < inputs.count; i++)
        driven[inputs.items[i]] = 1;
    for (int before = -1; placed > before;) {
        before = placed;
        for (int c = 0; c < cell_count; c++) {
            int ready = !driven[cells[c].net];
            for (int pin = 0; pin < cells[c].pins && !cells[c].latch; pin++)
                ready &= driven[cells[c].reads[pin]];
            if (ready)
                driven[cells[order[placed++] = c].net] = 1;
        }
    }
    if (placed < cell_count || placed + inputs.count < net_count)
        stop("a net is driven twice, or not at all, or reads itself", "");
}
