/* The test vectors of a netlist, by the algorithm of `tsc vectors`: a batch of 1,024 points is settled once without a fault; for
   each fault that isn't exposed yet only what changes from the fault before it is settled again, place by place, a place being
   taken where a fault is at it or a net that it reads has changed; and a fault that was exposed is dropped.

   vectors < NETLIST prints what `tsc vectors` prints, and vectors NUMBER < NETLIST does the work so many times. The netlist is one
   that `tsc synth` writes. WIDTH is the number of bytes of the vectors that the lanes of a net are worked on with. */
#include <stdint.h>
#include <stdio.h>
#include <stdlib.h>
#include <string.h>

#ifndef WIDTH
#define WIDTH 16
#endif
enum { POINTS = 1024, WORDS = POINTS / 64, PARTS = POINTS / 8 / WIDTH, NONE = -1 };

typedef uint64_t part __attribute__((vector_size(WIDTH)));
typedef struct { part parts[PARTS]; } lanes;
typedef struct { uint32_t net, flips, pin; } term;
typedef struct { uint32_t from, past; } term_row;
/* the net it drives; the number of its pins; the nets at the first two; the number of a function of two pins (1 for a constant, 2
   and 4 for its bits, 8 for their product), or whether its rows are an off-set; its rows */
typedef struct { uint32_t net, pins, first, second, number, row, past; } gate;
typedef struct { uint32_t place, next; } reader;
/* a stem (pin NONE) or a pin of the node or latch that drives the net, and the bit at which it is held */
typedef struct { uint32_t net; int pin; int held; } fault;

static char *text;
static char **names;              /* of nets */
static uint32_t *hashed, buckets; /* one more than the net of a name */
static uint32_t inputs, latches, nodes, nets;
static uint32_t *reads, *reads_from, *reads_past; /* of nodes in text order */
static gate *gates;                               /* along the order */
static uint32_t *place_of;                        /* of nodes */
static term *terms;
static term_row *term_rows;
static size_t term_count, row_count;
static reader *readers;
static uint32_t *heads, reader_count;
static uint64_t *marked;
static lanes *rows;
static uint64_t masks[16][4];
static uint64_t *states;
static size_t state_count;
static uint32_t rails[2];

static void *room(size_t count, size_t size)
{
    void *list = aligned_alloc(128, (count * size + 128) / 128 * 128);
    if (!list)
        exit(7);
    memset(list, 0, (count * size + 128) / 128 * 128);
    return list;
}

static uint32_t place_of_name(const char *name)
{
    uint32_t hash = 2166136261u;
    for (const char *at = name; *at; at++)
        hash = (hash ^ (unsigned char)*at) * 16777619u;
    hash &= buckets - 1;
    while (hashed[hash] && strcmp(names[hashed[hash] - 1], name))
        hash = (hash + 1) & (buckets - 1);
    return hash;
}

static void add_net(char *name)
{
    names[nets] = name;
    hashed[place_of_name(name)] = ++nets;
}

static uint32_t net_named(const char *name)
{
    return hashed[place_of_name(name)] - 1;
}

/* ---- reading: two walks over the lines, first the nets and then what nodes read */

typedef struct { char *words[4096]; int count; } line;

static char *next_line(char *at, line *l)
{
    static char *copy;
    size_t length = strcspn(at, "\n");
    copy = malloc(length + 1);
    memcpy(copy, at, length);
    copy[length] = 0;
    l->count = 0;
    for (char *word = strtok(copy, " "); word; word = strtok(NULL, " "))
        l->words[l->count++] = word;
    return at[length] ? at + length + 1 : NULL;
}

static gate *read_gates(void)
{
    static line l;
    gate *made = room(nodes, sizeof *made), *g = NULL;
    uint32_t node = 0, read = 0;
    for (char *at = text; at;) {
        at = next_line(at, &l);
        if (!l.count || *l.words[0] == '#')
            continue;
        if (!strcmp(l.words[0], ".names")) {
            g = &made[node];
            *g = (gate){.net = inputs + latches + node, .pins = l.count - 2, .row = row_count, .past = row_count};
            reads_from[node] = read;
            for (int pin = 1; pin < l.count - 1; pin++)
                reads[read++] = net_named(l.words[pin]);
            reads_past[node++] = read;
            if (g->pins > 0)
                g->first = g->second = reads[reads_from[node - 1]];
            if (g->pins > 1)
                g->second = reads[reads_from[node - 1] + 1];
        } else if (*l.words[0] != '.' && g) {
            const char *cube = l.count > 1 ? l.words[0] : "", *output = l.words[l.count - 1];
            uint32_t from = term_count;
            for (uint32_t pin = 0; pin < g->pins; pin++)
                if (cube[pin] != '-')
                    terms[term_count++] = (term){reads[reads_from[node - 1] + pin], cube[pin] == '0', pin};
            term_rows[row_count++] = (term_row){from, term_count};
            g->past = row_count;
            g->number = *output == '0';
        }
    }
    return made;
}

static int passes(const gate *g, int a, int b)
{
    for (uint32_t row = g->row; row < g->past; row++) {
        int all = 1;
        for (uint32_t at = term_rows[row].from; at < term_rows[row].past; at++)
            all &= (terms[at].pin ? b : a) ^ (int)terms[at].flips;
        if (all)
            return !g->number;
    }
    return g->number;
}

static void read_netlist(void)
{
    static line l;
    size_t length = 0, size = 1 << 16;
    text = malloc(size);
    for (size_t got; (got = fread(text + length, 1, size - length - 1, stdin)) > 0;) {
        length += got;
        if (length + 1 == size)
            text = realloc(text, size *= 2);
    }
    text[length] = 0;
    size_t lines = 0, words = 0;
    for (char *at = text; *at; at++)
        lines += *at == '\n', words += *at == ' ' || *at == '\n';
    for (buckets = 1; buckets < 2 * words; buckets *= 2)
        ;
    hashed = room(buckets, sizeof *hashed);
    names = room(words + 1, sizeof *names);
    states = room(lines + 1, sizeof *states);
    for (int turn = 0; turn < 3; turn++) /* inputs, latches, nodes */
        for (char *at = text; at;) {
            at = next_line(at, &l);
            if (!l.count)
                continue;
            if (turn == 0 && !strcmp(l.words[0], ".inputs"))
                for (int k = 1; k < l.count; k++, inputs++)
                    add_net(l.words[k]);
            if (turn == 1 && !strcmp(l.words[0], ".latch"))
                add_net(l.words[2]), latches++;
            if (turn == 2 && !strcmp(l.words[0], ".names"))
                add_net(l.words[l.count - 1]), nodes++;
            if (turn == 2 && l.count > 2 && !strcmp(l.words[0], "#tsc") && !strcmp(l.words[1], "state"))
                states[state_count++] = strtoull(l.words[2], NULL, 2);
        }
    reads = room(words, sizeof *reads);
    reads_from = room(nodes, sizeof *reads_from);
    reads_past = room(nodes, sizeof *reads_past);
    terms = room(length, sizeof *terms);
    term_rows = room(lines + 1, sizeof *term_rows);
    for (char *at = text; at;) {
        at = next_line(at, &l);
        if (l.count && !strcmp(l.words[0], ".outputs"))
            for (int k = 1; k < l.count; k++)
                rails[0] = rails[1], rails[1] = net_named(l.words[k]);
    }
}

/* The nodes along an order: depth first from each node in text order. */
static void put_order(const gate *made)
{
    char *listed = room(nodes, 1);
    uint32_t *stack = room(nodes + 1, sizeof *stack), *at_pin = room(nodes, sizeof *at_pin), place = 0;
    gates = room(nodes, sizeof *gates);
    place_of = room(nodes, sizeof *place_of);
    for (uint32_t from = 0; from < nodes; from++) {
        uint32_t depth = 0;
        if (!listed[from])
            stack[depth++] = from, listed[from] = 1;
        while (depth) {
            uint32_t node = stack[depth - 1], pin = reads_from[node] + at_pin[node];
            if (pin == reads_past[node]) {
                gates[place] = made[node];
                place_of[node] = place++;
                depth--;
                continue;
            }
            at_pin[node]++;
            if (reads[pin] >= inputs + latches && !listed[reads[pin] - inputs - latches])
                stack[depth++] = reads[pin] - inputs - latches, listed[reads[pin] - inputs - latches] = 1;
        }
    }
}

static void put_readers(void)
{
    heads = room(nets, sizeof *heads);
    readers = room(reads_past[nodes - 1] + 1, sizeof *readers);
    for (uint32_t place = 0; place < nodes; place++) {
        uint32_t node = gates[place].net - inputs - latches;
        for (uint32_t at = reads_from[node]; at < reads_past[node]; at++) {
            readers[reader_count] = (reader){place, heads[reads[at]]};
            heads[reads[at]] = ++reader_count;
        }
    }
}

static void put_numbers(gate *made)
{
    for (uint32_t node = 0; node < nodes; node++) {
        gate *g = &made[node];
        if (g->pins > 2)
            continue;
        unsigned none = passes(g, 0, 0), one = passes(g, 1, 0), other = passes(g, 0, 1), all = passes(g, 1, 1);
        g->number = none | (one ^ none) << 1 | (other ^ none) << 2 | (all ^ one ^ other ^ none) << 3;
    }
    for (unsigned number = 0; number < 16; number++)
        for (int bit = 0; bit < 4; bit++)
            masks[number][bit] = -(uint64_t)(number >> bit & 1);
}

/* ---- settling */

/* Writes a row, and says whether it changed. */
static inline int put(lanes *to, const part *made)
{
    part changed = {0};
    for (int k = 0; k < PARTS; k++) {
        changed |= to->parts[k] ^ made[k];
        to->parts[k] = made[k];
    }
    uint64_t words[WIDTH / 8], some = 0;
    memcpy(words, &changed, sizeof words);
    for (int k = 0; k < WIDTH / 8; k++)
        some |= words[k];
    return some != 0;
}

static inline int settle_two(const gate *g, const lanes *a, const lanes *b, lanes *to)
{
    const uint64_t *of = masks[g->number];
    part changed = {0};
    for (int k = 0; k < PARTS; k++) {
        part x = a->parts[k], y = b->parts[k];
        part made = (of[0] ^ (x & of[1])) ^ (y & (of[2] ^ (x & of[3])));
        changed |= to->parts[k] ^ made;
        to->parts[k] = made;
    }
    uint64_t words[WIDTH / 8], some = 0;
    memcpy(words, &changed, sizeof words);
    for (int k = 0; k < WIDTH / 8; k++)
        some |= words[k];
    return some != 0;
}

static int settle_many(const gate *g, int held_pin, int held)
{
    part some[PARTS];
    for (int k = 0; k < PARTS; k++)
        some[k] = (part){0};
    for (const term_row *row = term_rows + g->row, *past = term_rows + g->past; row < past; row++) {
        part each[PARTS];
        for (int k = 0; k < PARTS; k++)
            each[k] = ~(part){0};
        for (const term *t = terms + row->from, *past_term = terms + row->past; t < past_term; t++) {
            uint64_t flips = -(uint64_t)t->flips;
            if ((int)t->pin == held_pin) {
                for (int k = 0; k < PARTS; k++)
                    each[k] &= ((part){0} - (uint64_t)held) ^ flips;
                continue;
            }
            const lanes *from = rows + t->net;
            for (int k = 0; k < PARTS; k++)
                each[k] &= from->parts[k] ^ flips;
        }
        for (int k = 0; k < PARTS; k++)
            some[k] |= each[k];
    }
    for (int k = 0; k < PARTS; k++)
        some[k] ^= -(uint64_t)g->number;
    return put(rows + g->net, some);
}

static int settle_free(const gate *g)
{
    return g->pins <= 2 ? settle_two(g, rows + g->first, rows + g->second, rows + g->net) : settle_many(g, NONE, 0);
}

static void fill(lanes *to, int held)
{
    memset(to, held ? 0xff : 0, sizeof *to);
}

/* A node that the fault is at. */
static int settle_held(const gate *g, const fault *f)
{
    lanes held;
    fill(&held, f->held);
    if (f->pin == NONE)
        return put(rows + g->net, held.parts);
    if (g->pins > 2)
        return settle_many(g, f->pin, f->held);
    return settle_two(g, f->pin == 0 ? &held : rows + g->first, f->pin == 1 ? &held : rows + g->second, rows + g->net);
}

static uint32_t lowest; /* no word of marks before it has one */

static inline void mark(uint32_t place)
{
    marked[place / 64] |= (uint64_t)1 << place % 64;
    if (place / 64 < lowest)
        lowest = place / 64;
}

static inline void mark_readers(uint32_t net)
{
    for (uint32_t at = heads[net]; at; at = readers[at - 1].next)
        mark(readers[at - 1].place);
}

static lanes *points; /* of inputs and latches, without a fault */

static void mark_fault(const fault *f, int is_new)
{
    if (f->net >= inputs + latches) {
        mark(place_of[f->net - inputs - latches]);
        return;
    }
    if (is_new)
        fill(rows + f->net, f->held);
    else
        rows[f->net] = points[f->net];
    mark_readers(f->net);
}

static void settle_again(const fault *old, const fault *new)
{
    lowest = UINT32_MAX;
    if (old)
        mark_fault(old, 0);
    mark_fault(new, 1);
    uint32_t site = new->net;
    for (uint32_t word = lowest, words = nodes / 64 + 1; word < words; word++)
        while (marked[word]) {
            const gate *g = &gates[word * 64 + __builtin_ctzll(marked[word])];
            marked[word] &= marked[word] - 1;
            if (g->net == site ? settle_held(g, new) : settle_free(g))
                mark_readers(g->net);
        }
}

static int first_agreement(int many)
{
    uint64_t one[WORDS], other[WORDS];
    memcpy(one, rows + rails[0], sizeof one);
    memcpy(other, rows + rails[1], sizeof other);
    for (int word = 0; word < WORDS; word++) {
        uint64_t agree = ~(one[word] ^ other[word]);
        if (agree) {
            int point = word * 64 + __builtin_ctzll(agree);
            return point < many ? point : NONE;
        }
    }
    return NONE;
}

/* ---- faults and points */

static fault *faults;
static size_t fault_count;
static int64_t *found;

static void list_faults(void)
{
    faults = room((nets + reads_past[nodes - 1] + latches) * 2, sizeof *faults);
    for (uint32_t net = inputs; net < nets; net++) {
        uint32_t node = net - inputs - latches;
        int pins = net < inputs + latches ? 1 : (int)(reads_past[node] - reads_from[node]);
        for (int pin = NONE; pin < pins; pin++)
            for (int held = 0; held < 2; held++)
                faults[fault_count++] = (fault){net, pin, held};
    }
    found = room(fault_count, sizeof *found);
}

static void put_points(uint64_t first, int many)
{
    uint64_t (*words)[WORDS] = (uint64_t (*)[WORDS])points;
    for (uint32_t net = 0; net < inputs + latches; net++)
        for (int p = 0; p < many; p++) {
            uint64_t state = latches ? states[(first + p) >> inputs] : 0;
            uint64_t bit = net < inputs ? (first + p) >> (inputs - 1 - net) : state >> (latches - 1 - (net - inputs));
            words[net][p / 64] = (words[net][p / 64] & ~((uint64_t)1 << p % 64)) | (bit & 1) << p % 64;
        }
    memcpy(rows, points, (inputs + latches) * sizeof *rows);
}

static void find_all(uint64_t count)
{
    for (size_t k = 0; k < fault_count; k++)
        found[k] = NONE;
    for (uint64_t first = 0; first < count; first += POINTS) {
        int many = count - first < POINTS ? (int)(count - first) : POINTS;
        put_points(first, many);
        for (uint32_t place = 0; place < nodes; place++)
            settle_free(&gates[place]);
        fault last, *old = NULL;
        for (size_t k = 0; k < fault_count; k++) {
            if (found[k] != NONE)
                continue;
            fault now = faults[k];
            if (now.net < inputs + latches)
                now.pin = NONE;
            settle_again(old, &now);
            last = now;
            old = &last;
            int point = first_agreement(many);
            if (point != NONE)
                found[k] = first + point;
        }
    }
}

int main(int words, char **word)
{
    read_netlist();
    gate *made = read_gates();
    put_numbers(made);
    put_order(made);
    put_readers();
    list_faults();
    rows = room(nets, sizeof *rows);
    points = room(inputs + latches, sizeof *points);
    marked = room(nodes / 64 + 1, sizeof *marked);
    uint64_t count = (latches ? state_count : 1) << inputs;
    if (count > 65536)
        return 5;
    unsigned long long times = words > 1 ? strtoull(word[1], NULL, 10) : 1;
    for (unsigned long long time = 0; time < times; time++)
        find_all(count);
    size_t testable = 0;
    for (size_t k = 0; k < fault_count; k++) {
        if (faults[k].pin == NONE)
            printf("stem %s %d", names[faults[k].net], faults[k].held);
        else
            printf("pin %s %d %d", names[faults[k].net], faults[k].pin, faults[k].held);
        if (found[k] == NONE) {
            printf(" untestable\n");
            continue;
        }
        testable++;
        printf(" at %lld ", (long long)(found[k] >> inputs));
        for (uint32_t input = 0; input < inputs; input++)
            putchar('0' + (int)(found[k] >> (inputs - 1 - input) & 1));
        putchar('\n');
    }
    printf("testable %zu untestable %zu\nself-testing %s\n", testable, fault_count - testable, testable == fault_count ? "yes" : "no");
    return 0;
}
