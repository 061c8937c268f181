/* The walk of `tsc audit` over all points: the netlist is settled 1,024 points at once, its outputs and next states are compared with what
   the source allows, and the monitored word is tried, lane by lane. It doesn't try the structure nor the checker, as `tsc audit` does, so it
   does less.

   audit < TEXT prints `yes`, or `no` where some point differs; audit NUMBER < TEXT walks so many times. The source is a network that ends
   with a line `.end`, or a machine in KISS2 or a table of PLA: a text that begins with `.i` and ends with a line `.e`. A row of a table has
   two words, and its type is fd. Where two networks stand before the netlist, the second tells at which points the outputs of the first are
   free: so `tsc audit pla` has a table, as two networks that are settled, while this program else goes over each row of a table once for all
   outputs. The netlist behind it is one that `tsc synth` writes, behind a machine or a table of version 2. WIDTH is the number of bytes of the vectors that lanes are worked on with. It reads
   what `bench/run` draws, without comments and continued lines, and looks for no mistake in it. */
#include <stdint.h>
#include <stdio.h>
#include <stdlib.h>
#include <string.h>

#ifndef WIDTH
#define WIDTH 16
#endif
enum { POINTS = 1024, WORDS = POINTS / 64, PARTS = POINTS / 8 / WIDTH, MOST = 64 };
#define NONE UINT32_MAX

typedef uint64_t part __attribute__((vector_size(WIDTH)));
typedef struct { part parts[PARTS]; } lanes;
typedef struct { uint32_t net, flips, pin; } term;
typedef struct { uint32_t from, past; } term_row;
/* the net it drives; the number of its pins; the nets at the first two; the number of a function of two pins, or whether its rows are an
   off-set; its rows */
typedef struct { uint32_t net, pins, first, second, number, row, past; } gate;
/* names, numbered in the order in which they were added, and one more than the number of each at its place */
typedef struct {
    char **names;
    uint32_t *hashed, buckets, count;
} table;
typedef struct {
    table nets;
    uint32_t inputs, latches, given, nodes, outputs, output[MOST + 2], checks, check[MOST]; /* given: inputs and latch outputs */
    uint32_t next[MOST]; /* of latches: the nets at their inputs */
    uint64_t begins, *states, state_count; /* words of latches, the first one's bit the most significant */
    uint64_t groups[MOST]; /* of parity: the places of its outputs */
    uint32_t group_count;
    uint32_t *reads, *reads_from, *reads_past;
    gate *gates;
    term *terms;
    term_row *term_rows;
    size_t term_count, row_count;
    lanes *rows;
    char code; /* p, b, m, or 0 for a source */
} netlist;
/* what it asks of the inputs; the state where it starts, NONE for every one; the next state, NONE where it is free; the outputs that it
   specifies, and their bits, the first output's the least significant */
typedef struct { term_row asks; uint32_t from, next; uint64_t care, gives; } machine_row;
typedef struct {
    table states;
    uint32_t inputs, outputs, reset, row_count;
    machine_row *rows;
    term *terms;
} machine;

/* what it asks of the inputs, the outputs that it makes 1 and those that it leaves free, the first output's bit the least significant */
typedef struct { term_row asks; uint64_t ones, free; } table_row;
typedef struct {
    uint32_t inputs, outputs, row_count;
    table_row *rows;
    term *terms;
} loose;

static uint64_t masks[16][4];

static void *room(size_t count, size_t size)
{
    void *list = aligned_alloc(128, (count * size + 128) / 128 * 128);
    if (!list)
        exit(7);
    memset(list, 0, (count * size + 128) / 128 * 128);
    return list;
}

static void make_table(table *t, size_t words)
{
    for (t->buckets = 1; t->buckets < 2 * words; t->buckets *= 2)
        ;
    t->hashed = room(t->buckets, sizeof *t->hashed);
    t->names = room(words + 1, sizeof *t->names);
}

static uint32_t place_of_name(const table *t, const char *name)
{
    uint32_t hash = 2166136261u;
    for (const char *at = name; *at; at++)
        hash = (hash ^ (unsigned char)*at) * 16777619u;
    hash &= t->buckets - 1;
    while (t->hashed[hash] && strcmp(t->names[t->hashed[hash] - 1], name))
        hash = (hash + 1) & (t->buckets - 1);
    return hash;
}

static void add_name(table *t, char *name)
{
    t->names[t->count] = name;
    t->hashed[place_of_name(t, name)] = ++t->count;
}

static uint32_t number_of(const table *t, const char *name)
{
    return t->hashed[place_of_name(t, name)] - 1;
}

static uint32_t net_named(const netlist *n, const char *name)
{
    return number_of(&n->nets, name);
}

/* ---- reading */

typedef struct { char *words[4096]; int count; } line;

static char *next_line(char *at, line *l)
{
    size_t length = strcspn(at, "\n");
    char *copy = malloc(length + 1);
    memcpy(copy, at, length);
    copy[length] = 0;
    l->count = 0;
    for (char *word = strtok(copy, " "); word; word = strtok(NULL, " "))
        l->words[l->count++] = word;
    return at[length] ? at + length + 1 : NULL;
}

static void read_plan(netlist *n, const line *l)
{
    if (*l->words[1] >= '0' && *l->words[1] <= '9') {
        n->code = *l->words[2];
    } else if (!strcmp(l->words[1], "check")) {
        for (int k = 2; k < l->count; k++)
            n->check[n->checks++] = net_named(n, l->words[k]);
    } else if (!strcmp(l->words[1], "group")) {
        for (int k = 2; k < l->count - 1; k++)
            for (uint32_t o = 0; o < n->outputs; o++)
                if (n->output[o] == net_named(n, l->words[k]))
                    n->groups[n->group_count] |= (uint64_t)1 << o;
        n->check[n->group_count++] = net_named(n, l->words[l->count - 1]);
    } else if (!strcmp(l->words[1], "state")) {
        n->states[n->state_count++] = strtoull(l->words[2], NULL, 2);
    }
}

static gate *read_gates(netlist *n, char *text)
{
    static line l;
    gate *made = room(n->nodes, sizeof *made), *g = NULL;
    uint32_t node = 0, read = 0, latch = 0;
    for (char *at = text; at;) {
        at = next_line(at, &l);
        if (!l.count)
            continue;
        if (!strcmp(l.words[0], "#tsc")) {
            read_plan(n, &l);
        } else if (!strcmp(l.words[0], ".outputs")) {
            for (int k = 1; k < l.count; k++)
                n->output[n->outputs++] = net_named(n, l.words[k]);
        } else if (!strcmp(l.words[0], ".latch")) {
            n->next[latch++] = net_named(n, l.words[1]);
            n->begins = n->begins << 1 | (*l.words[l.count - 1] == '1');
        } else if (!strcmp(l.words[0], ".names")) {
            g = &made[node];
            *g = (gate){.net = n->given + node, .pins = l.count - 2, .row = n->row_count, .past = n->row_count};
            n->reads_from[node] = read;
            for (int pin = 1; pin < l.count - 1; pin++)
                n->reads[read++] = net_named(n, l.words[pin]);
            n->reads_past[node++] = read;
            if (g->pins > 0)
                g->first = g->second = n->reads[n->reads_from[node - 1]];
            if (g->pins > 1)
                g->second = n->reads[n->reads_from[node - 1] + 1];
        } else if (*l.words[0] != '.' && *l.words[0] != '#' && g) {
            const char *cube = l.count > 1 ? l.words[0] : "", *output = l.words[l.count - 1];
            uint32_t from = n->term_count;
            for (uint32_t pin = 0; pin < g->pins; pin++)
                if (cube[pin] != '-')
                    n->terms[n->term_count++] = (term){n->reads[n->reads_from[node - 1] + pin], cube[pin] == '0', pin};
            n->term_rows[n->row_count++] = (term_row){from, n->term_count};
            g->past = n->row_count;
            g->number = *output == '0';
        }
    }
    return made;
}

static int passes(const netlist *n, const gate *g, int a, int b)
{
    for (uint32_t row = g->row; row < g->past; row++) {
        int all = 1;
        for (uint32_t at = n->term_rows[row].from; at < n->term_rows[row].past; at++)
            all &= (n->terms[at].pin ? b : a) ^ (int)n->terms[at].flips;
        if (all)
            return !g->number;
    }
    return g->number;
}

static void put_numbers(const netlist *n, gate *made)
{
    for (uint32_t node = 0; node < n->nodes; node++) {
        gate *g = &made[node];
        if (g->pins > 2)
            continue;
        unsigned none = passes(n, g, 0, 0), one = passes(n, g, 1, 0), other = passes(n, g, 0, 1), all = passes(n, g, 1, 1);
        g->number = none | (one ^ none) << 1 | (other ^ none) << 2 | (all ^ one ^ other ^ none) << 3;
    }
}

/* The nodes along an order: depth first from each node in text order. */
static void put_order(netlist *n, const gate *made)
{
    char *listed = room(n->nodes, 1);
    uint32_t *stack = room(n->nodes + 1, sizeof *stack), *at_pin = room(n->nodes, sizeof *at_pin), place = 0;
    n->gates = room(n->nodes, sizeof *n->gates);
    for (uint32_t from = 0; from < n->nodes; from++) {
        uint32_t depth = 0;
        if (!listed[from])
            stack[depth++] = from, listed[from] = 1;
        while (depth) {
            uint32_t node = stack[depth - 1], pin = n->reads_from[node] + at_pin[node];
            if (pin == n->reads_past[node]) {
                n->gates[place++] = made[node];
                depth--;
                continue;
            }
            at_pin[node]++;
            if (n->reads[pin] >= n->given && !listed[n->reads[pin] - n->given])
                stack[depth++] = n->reads[pin] - n->given, listed[n->reads[pin] - n->given] = 1;
        }
    }
}

static void read_netlist(netlist *n, char *text)
{
    static line l;
    size_t length = strlen(text), lines = 0, words = 0;
    for (char *at = text; *at; at++)
        lines += *at == '\n', words += *at == ' ' || *at == '\n';
    make_table(&n->nets, words);
    for (int turn = 0; turn < 2; turn++) /* inputs, then latches and behind them nodes */
        for (char *at = text; at;) {
            at = next_line(at, &l);
            if (turn == 0 && l.count && !strcmp(l.words[0], ".inputs"))
                for (int k = 1; k < l.count; k++, n->inputs++)
                    add_name(&n->nets, l.words[k]);
            if (turn == 1 && l.count && !strcmp(l.words[0], ".latch"))
                add_name(&n->nets, l.words[2]), n->latches++;
            if (turn == 1 && l.count && !strcmp(l.words[0], ".names"))
                add_name(&n->nets, l.words[l.count - 1]), n->nodes++;
        }
    n->given = n->inputs + n->latches;
    n->states = room(lines + 1, sizeof *n->states);
    n->reads = room(words, sizeof *n->reads);
    n->reads_from = room(n->nodes, sizeof *n->reads_from);
    n->reads_past = room(n->nodes, sizeof *n->reads_past);
    n->terms = room(length, sizeof *n->terms);
    n->term_rows = room(lines + 1, sizeof *n->term_rows);
    gate *made = read_gates(n, text);
    put_numbers(n, made);
    put_order(n, made);
    n->rows = room(n->nets.count, sizeof *n->rows);
}

/* The state of a name; none is that of `*` and `-`. */
static uint32_t state_named(machine *m, char *name)
{
    if (!strcmp(name, "*") || !strcmp(name, "-"))
        return NONE;
    if (number_of(&m->states, name) == NONE)
        add_name(&m->states, name);
    return number_of(&m->states, name);
}

static void read_machine(machine *m, char *text)
{
    static line l;
    size_t lines = 1;
    uint32_t terms = 0;
    char *reset = NULL;
    for (char *at = text; *at; at++)
        lines += *at == '\n';
    make_table(&m->states, 2 * lines);
    m->rows = room(lines, sizeof *m->rows);
    m->terms = room(strlen(text), sizeof *m->terms);
    for (char *at = text; at;) {
        at = next_line(at, &l);
        if (l.count > 1 && !strcmp(l.words[0], ".i"))
            m->inputs = strtoul(l.words[1], NULL, 10);
        if (l.count > 1 && !strcmp(l.words[0], ".o"))
            m->outputs = strtoul(l.words[1], NULL, 10);
        if (l.count > 1 && !strcmp(l.words[0], ".r"))
            reset = l.words[1];
        if (l.count != 4 || *l.words[0] == '.' || *l.words[0] == '#')
            continue;
        machine_row *row = &m->rows[m->row_count++];
        row->asks.from = terms;
        for (uint32_t input = 0; input < m->inputs; input++)
            if (l.words[0][input] != '-')
                m->terms[terms++] = (term){input, l.words[0][input] == '0', input};
        row->asks.past = terms;
        row->from = state_named(m, l.words[1]);
        row->next = state_named(m, l.words[2]);
        for (uint32_t o = 0; o < m->outputs; o++) {
            row->care |= (uint64_t)(l.words[3][o] != '-') << o;
            row->gives |= (uint64_t)(l.words[3][o] == '1') << o;
        }
    }
    m->reset = reset ? state_named(m, reset) : m->rows[0].from == NONE ? 0 : m->rows[0].from;
}

static void read_loose(loose *t, char *text)
{
    static line l;
    size_t lines = 1;
    uint32_t terms = 0;
    for (char *at = text; *at; at++)
        lines += *at == '\n';
    t->rows = room(lines, sizeof *t->rows);
    t->terms = room(strlen(text), sizeof *t->terms);
    for (char *at = text; at;) {
        at = next_line(at, &l);
        if (l.count > 1 && !strcmp(l.words[0], ".i"))
            t->inputs = strtoul(l.words[1], NULL, 10);
        if (l.count > 1 && !strcmp(l.words[0], ".o"))
            t->outputs = strtoul(l.words[1], NULL, 10);
        if (l.count != 2 || *l.words[0] == '.' || *l.words[0] == '#')
            continue;
        table_row *row = &t->rows[t->row_count++];
        row->asks.from = terms;
        for (uint32_t input = 0; input < t->inputs; input++)
            if (l.words[0][input] != '-')
                t->terms[terms++] = (term){input, l.words[0][input] == '0', input};
        row->asks.past = terms;
        for (uint32_t o = 0; o < t->outputs; o++) {
            row->ones |= (uint64_t)(l.words[1][o] == '1') << o;
            row->free |= (uint64_t)(l.words[1][o] == '-') << o;
        }
    }
}

/* ---- points */

static void settle_two(const gate *g, const lanes *a, const lanes *b, lanes *to)
{
    const uint64_t *of = masks[g->number];
    for (int k = 0; k < PARTS; k++) {
        part x = a->parts[k], y = b->parts[k];
        to->parts[k] = (of[0] ^ (x & of[1])) ^ (y & (of[2] ^ (x & of[3])));
    }
}

static void settle_many(const netlist *n, const gate *g)
{
    lanes some;
    memset(&some, 0, sizeof some);
    for (const term_row *row = n->term_rows + g->row, *past = n->term_rows + g->past; row < past; row++) {
        lanes each;
        memset(&each, 0xff, sizeof each);
        for (const term *t = n->terms + row->from, *past_term = n->terms + row->past; t < past_term; t++) {
            uint64_t flips = -(uint64_t)t->flips;
            for (int k = 0; k < PARTS; k++)
                each.parts[k] &= n->rows[t->net].parts[k] ^ flips;
        }
        for (int k = 0; k < PARTS; k++)
            some.parts[k] |= each.parts[k];
    }
    for (int k = 0; k < PARTS; k++)
        n->rows[g->net].parts[k] = some.parts[k] ^ -(uint64_t)g->number;
}

static void settle(const netlist *n)
{
    for (const gate *g = n->gates, *past = g + n->nodes; g < past; g++)
        if (g->pins <= 2)
            settle_two(g, n->rows + g->first, n->rows + g->second, n->rows + g->net);
        else
            settle_many(n, g);
}

static void put_points(const netlist *n, uint64_t first)
{
    for (uint32_t input = 0; input < n->inputs; input++) {
        uint32_t bit = n->inputs - 1 - input;
        uint64_t *words = (uint64_t *)(n->rows + input);
        for (int word = 0; word < WORDS; word++) {
            uint64_t made = 0;
            if (bit >= 6)
                made = -((first + word * 64) >> bit & 1);
            else
                for (int p = 0; p < 64; p++)
                    made |= (uint64_t)(p >> bit & 1) << p;
            words[word] = made;
        }
    }
}

/* points of a batch, and the parts in which they stand */
typedef struct { lanes of; int part, past; } span;

/* The points of a state, or all for NONE, in the batch from the point `first` on. */
static span points_of(uint32_t state, uint32_t inputs, uint64_t first)
{
    uint64_t words[WORDS], from = first, past = first + POINTS;
    if (state != NONE)
        from = (uint64_t)state << inputs, past = from + ((uint64_t)1 << inputs);
    from = from < first ? 0 : from > first + POINTS ? POINTS : from - first;
    past = past < first ? 0 : past > first + POINTS ? POINTS : past - first;
    span made = {.part = from / (8 * WIDTH), .past = (past + 8 * WIDTH - 1) / (8 * WIDTH)};
    for (uint64_t word = 0, base = 0; word < WORDS; word++, base += 64) {
        uint64_t below = past <= base ? 0 : past >= base + 64 ? -(uint64_t)1 : ((uint64_t)1 << (past - base)) - 1;
        words[word] = from <= base ? below : from >= base + 64 ? 0 : below >> (from - base) << (from - base);
    }
    memcpy(&made.of, words, sizeof words);
    return made;
}

/* The bit of a state's word at a latch, in every place. */
static uint64_t state_bit(const netlist *n, uint32_t state, uint32_t latch)
{
    return -(n->states[state] >> (n->latches - 1 - latch) & 1);
}

static void put_states(const netlist *n, uint64_t first)
{
    memset(n->rows + n->inputs, 0, n->latches * sizeof *n->rows);
    for (uint32_t state = first >> n->inputs; state < n->state_count && (uint64_t)state << n->inputs < first + POINTS; state++) {
        span points = points_of(state, n->inputs, first);
        for (uint32_t latch = 0; latch < n->latches; latch++)
            for (int k = points.part; k < points.past; k++)
                n->rows[n->inputs + latch].parts[k] |= points.of.parts[k] & state_bit(n, state, latch);
    }
}

/* The bits of a count of lanes, the least significant first. */
static void add_lane(lanes *count, int bits, const lanes *one, uint64_t flips)
{
    lanes carry;
    for (int k = 0; k < PARTS; k++)
        carry.parts[k] = one->parts[k] ^ flips;
    for (int bit = 0; bit < bits; bit++)
        for (int k = 0; k < PARTS; k++) {
            part sum = count[bit].parts[k] ^ carry.parts[k];
            carry.parts[k] &= count[bit].parts[k];
            count[bit].parts[k] = sum;
        }
}

/* Whether there is some point of the batch, of the first so many. */
static int is_some(const lanes *points, int many)
{
    uint64_t words[WORDS];
    memcpy(words, points, sizeof words);
    for (int word = 0; word < WORDS && word * 64 < many; word++)
        if (words[word] & (many - word * 64 < 64 ? ((uint64_t)1 << many % 64) - 1 : -(uint64_t)1))
            return 1;
    return 0;
}

/* Marks the points at which the next bits have another number of ones than a state's word. */
static void mark_other_weights(const netlist *n, lanes *wrong)
{
    lanes count[8];
    memset(count, 0, sizeof count);
    for (uint32_t latch = 0; latch < n->latches; latch++)
        add_lane(count, 8, n->rows + n->next[latch], 0);
    for (int bit = 0; bit < 8; bit++)
        for (int k = 0; k < PARTS; k++)
            wrong->parts[k] |= count[bit].parts[k] ^ -(uint64_t)(__builtin_popcountll(n->states[0]) >> bit & 1);
}

/* The points at which the word is no codeword. */
static lanes not_codewords(const netlist *n)
{
    lanes wrong, count[8];
    memset(&wrong, 0, sizeof wrong);
    memset(count, 0, sizeof count);
    uint32_t outputs = n->outputs - 2;
    if (n->code == 'p') {
        for (uint32_t g = 0; g < n->group_count; g++)
            for (int k = 0; k < PARTS; k++) {
                part odd = n->rows[n->check[g]].parts[k];
                for (uint64_t left = n->groups[g]; left; left &= left - 1)
                    odd ^= n->rows[n->output[__builtin_ctzll(left)]].parts[k];
                wrong.parts[k] |= ~odd;
            }
        return wrong;
    }
    for (uint32_t o = 0; o < outputs; o++)
        add_lane(count, 8, n->rows + n->output[o], n->code == 'b' ? -(uint64_t)1 : 0);
    if (n->code == 'm')
        for (uint32_t c = 0; c < n->checks; c++)
            add_lane(count, 8, n->rows + n->check[c], 0);
    for (int bit = 0; bit < 8; bit++)
        for (int k = 0; k < PARTS; k++) {
            part wanted = {0};
            if (n->code == 'm')
                wanted -= (uint64_t)(n->checks >> bit & 1);
            else if (bit < (int)n->checks)
                wanted = n->rows[n->check[n->checks - 1 - bit]].parts[k];
            wrong.parts[k] |= count[bit].parts[k] ^ wanted;
        }
    if (n->latches)
        mark_other_weights(n, &wrong);
    return wrong;
}

/* Marks the points at which the outputs aren't the network's. */
static void mark_other_outputs(const netlist *source, const netlist *n, lanes *wrong)
{
    for (uint32_t o = 0; o < source->outputs; o++)
        for (int k = 0; k < PARTS; k++)
            wrong->parts[k] |= source->rows[source->output[o]].parts[k] ^ n->rows[n->output[o]].parts[k];
}

/* Marks the points at which an output isn't the network's, and another network says that it isn't free. */
static void mark_not_free(const netlist *source, const netlist *free, const netlist *n, lanes *wrong)
{
    for (uint32_t o = 0; o < source->outputs; o++)
        for (int k = 0; k < PARTS; k++)
            wrong->parts[k] |= (source->rows[source->output[o]].parts[k] ^ n->rows[n->output[o]].parts[k]) & ~free->rows[free->output[o]].parts[k];
}

/* The points at which a row of a machine answers. */
static span answered_by(const machine *m, const machine_row *row, const netlist *n, uint64_t first)
{
    span points = points_of(row->from, m->inputs, first);
    for (const term *t = m->terms + row->asks.from, *past = m->terms + row->asks.past; t < past; t++)
        for (int k = points.part; k < points.past; k++)
            points.of.parts[k] &= n->rows[t->net].parts[k] ^ -(uint64_t)t->flips;
    return points;
}

/* Takes from points those at which the next bits are a state's word. */
static void take_state(const netlist *n, uint32_t state, lanes *from)
{
    lanes other;
    memset(&other, 0, sizeof other);
    for (uint32_t latch = 0; latch < n->latches; latch++)
        for (int k = 0; k < PARTS; k++)
            other.parts[k] |= n->rows[n->next[latch]].parts[k] ^ state_bit(n, state, latch);
    for (int k = 0; k < PARTS; k++)
        from->parts[k] &= other.parts[k];
}

/* Marks the points at which the outputs or the next bits aren't those that a machine allows: where rows answer they are theirs, but for what
   these leave free; and where no row names the next state the bits are some state's word. */
static void mark_not_allowed(const machine *m, const netlist *n, uint64_t first, lanes *wrong)
{
    lanes free;
    memset(&free, 0xff, sizeof free);
    for (const machine_row *row = m->rows, *past = row + m->row_count; row < past; row++) {
        span points = answered_by(m, row, n, first);
        for (uint64_t left = row->care; left; left &= left - 1) {
            uint32_t o = __builtin_ctzll(left);
            for (int k = points.part; k < points.past; k++)
                wrong->parts[k] |= points.of.parts[k] & (n->rows[n->output[o]].parts[k] ^ -(row->gives >> o & 1));
        }
        if (row->next == NONE)
            continue;
        for (uint32_t latch = 0; latch < n->latches; latch++)
            for (int k = points.part; k < points.past; k++)
                wrong->parts[k] |= points.of.parts[k] & (n->rows[n->next[latch]].parts[k] ^ state_bit(n, row->next, latch));
        for (int k = points.part; k < points.past; k++)
            free.parts[k] &= ~points.of.parts[k];
    }
    for (uint32_t state = 0; state < n->state_count && is_some(&free, POINTS); state++)
        take_state(n, state, &free);
    for (int k = 0; k < PARTS; k++)
        wrong->parts[k] |= free.parts[k];
}

/* Adds the points to those of each output that has a bit. */
static void put_marks(uint64_t bits, const lanes *points, lanes *to)
{
    for (; bits; bits &= bits - 1)
        for (int k = 0; k < PARTS; k++)
            to[__builtin_ctzll(bits)].parts[k] |= points->parts[k];
}

/* Marks the points at which the outputs aren't those of a table: 1 where a row says so, else free where a row says so, else 0. */
static void mark_not_in_table(const loose *t, const netlist *n, lanes *wrong)
{
    static lanes ones[MOST], left[MOST];
    memset(ones, 0, sizeof ones);
    memset(left, 0, sizeof left);
    for (const table_row *row = t->rows, *past = row + t->row_count; row < past; row++) {
        lanes points;
        memset(&points, 0xff, sizeof points);
        for (const term *of = t->terms + row->asks.from, *end = t->terms + row->asks.past; of < end; of++)
            for (int k = 0; k < PARTS; k++)
                points.parts[k] &= n->rows[of->net].parts[k] ^ -(uint64_t)of->flips;
        put_marks(row->ones, &points, ones);
        put_marks(row->free, &points, left);
    }
    for (uint32_t o = 0; o < t->outputs; o++)
        for (int k = 0; k < PARTS; k++)
            wrong->parts[k] |= (ones[o].parts[k] ^ n->rows[n->output[o]].parts[k]) & ~(left[o].parts[k] & ~ones[o].parts[k]);
}

/* Whether the netlist is right at all points: those of a machine or of a table, or of a network where there is none, which another network
   may leave free. */
static int walk(const netlist *source, const netlist *free, const machine *m, const loose *t, const netlist *n)
{
    uint64_t count = (uint64_t)(m ? m->states.count : 1) << n->inputs;
    for (uint64_t first = 0; first < count; first += POINTS) {
        put_points(n, first);
        if (m) {
            put_states(n, first);
        } else if (!t) {
            put_points(source, first);
            settle(source);
        }
        if (free) {
            put_points(free, first);
            settle(free);
        }
        settle(n);
        lanes wrong = not_codewords(n);
        if (m)
            mark_not_allowed(m, n, first, &wrong);
        else if (t)
            mark_not_in_table(t, n, &wrong);
        else if (free)
            mark_not_free(source, free, n, &wrong);
        else
            mark_other_outputs(source, n, &wrong);
        if (is_some(&wrong, count - first < POINTS ? (int)(count - first) : POINTS))
            return 0;
    }
    return 1;
}

/* Whether the first row of a text that begins with `.i` has two words, as a table's. */
static int has_two_words(char *text)
{
    static line l;
    for (char *at = text; at;) {
        at = next_line(at, &l);
        if (l.count && *l.words[0] != '.' && *l.words[0] != '#')
            return l.count == 2;
    }
    return 0;
}

/* All of standard input, ended by a zero. */
static char *standard_input(void)
{
    size_t length = 0, size = 1 << 16;
    char *text = malloc(size);
    for (size_t got; (got = fread(text + length, 1, size - length - 1, stdin)) > 0;) {
        length += got;
        if (length + 1 == size)
            text = realloc(text, size *= 2);
    }
    text[length] = 0;
    return text;
}

int main(int words, char **word)
{
    char *text = standard_input();
    int has_rows = !strncmp(text, ".i ", 3);
    const char *mark = has_rows ? "\n.e\n" : "\n.end\n";
    char *end = strstr(text, mark);
    if (!end)
        return 3;
    *end = 0;
    for (unsigned number = 0; number < 16; number++)
        for (int bit = 0; bit < 4; bit++)
            masks[number][bit] = -(uint64_t)(number >> bit & 1);
    static netlist source, free, behind;
    static machine table;
    static loose rows;
    int is_loose = has_rows && has_two_words(text), is_machine = has_rows && !is_loose;
    if (is_loose)
        read_loose(&rows, text);
    else if (is_machine)
        read_machine(&table, text);
    else
        read_netlist(&source, text);
    char *rest = end + strlen(mark), *next = has_rows ? NULL : strstr(rest, mark);
    int has_free = next && next[strlen(mark)];
    if (has_free) {
        *next = 0;
        read_netlist(&free, rest);
        rest = next + strlen(mark);
    }
    read_netlist(&behind, rest);
    uint32_t inputs = is_loose ? rows.inputs : is_machine ? table.inputs : source.inputs;
    uint32_t outputs = is_loose ? rows.outputs : is_machine ? table.outputs : source.outputs;
    if (inputs != behind.inputs || outputs + 2 != behind.outputs || inputs > 20)
        return 1;
    int right = 1;
    if (is_machine) {
        if (table.states.count != behind.state_count || (uint64_t)behind.state_count << inputs > 1 << 20)
            return 1;
        right = behind.begins == behind.states[table.reset];
    }
    unsigned long long times = words > 1 ? strtoull(word[1], NULL, 10) : 1;
    for (unsigned long long time = 0; time < times; time++)
        right &= walk(&source, has_free ? &free : NULL, is_machine ? &table : NULL, is_loose ? &rows : NULL, &behind);
    puts(right ? "yes" : "no");
    return !right;
}
