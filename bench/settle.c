/* Settles a netlist at 1,024 points as the bench of the simulation does: each net has a row from its node to its last reader,
   and a settle runs one program of gates over these rows: a gate of at most two pins by the formula of its function (a product
   of two bits that may be negated, their exclusive or, a sum modulo 2 of some of them), a wider one as rows of terms.

   settle NUMBER < NETLIST settles NUMBER times and once more, and prints a checksum of what the outputs have then. The netlist
   is one that bench/run draws: its inputs are i0, i1 .., its nodes n0, n1 .., and each node reads inputs and earlier nodes alone.

   WIDTH is the number of bytes of the vectors that the lanes of a net are worked on with. All lanes stand in one list, and a step
   has the places of nets there. With LISTS the steps are those of the bench itself: the lanes of the inputs stand in a list of
   their own, and a step has for each pin the word at which its lanes start and which list that is of. With ROWS each gate is run
   as rows of terms, and not only those of three pins and more. With TURN the parts of a net's lanes are written one after the other,
   as they are made, else all at the end; with WORD the masks are words also where the vectors are of 16 bytes. With ANY_KIND every
   gate of two pins is settled by one formula, the sum modulo 2 of a constant, each bit and their product. */
#include <stdint.h>
#include <stdio.h>
#include <stdlib.h>
#include <string.h>

#ifndef WIDTH
#define WIDTH 128
#endif
enum { POINTS = 1024, WORDS = POINTS / 64, PARTS = POINTS / 8 / WIDTH };

typedef uint64_t part __attribute__((vector_size(WIDTH)));
typedef struct { part parts[PARTS]; } lanes;

typedef struct { uint32_t home, flips; } term;             /* where a pin's lanes are; whether the term wants a 0 */
typedef struct { uint32_t from, past; } term_row;          /* the places of its first term and behind its last one */
/* the places of its first row and behind its last one; where its lanes go; an off-set?; the pins, the nets at the first two, and
   which of their four values a row passes */
typedef struct { uint32_t row, past, home, flips, pins, first, second, passed; } gate;
/* where its lanes go; the pins' homes and the number of the function of two pins (1 for a constant, 2 and 4 for its bits, 8 for their
   product; with LISTS the place of its first mask), or the rows and whether they are an off-set */
#ifdef LISTS
typedef struct { uint32_t driver, home; uint8_t kind, first_in_rows, second_in_rows, number; uint32_t first, second; } step;
#else
typedef struct { uint32_t home, kind, first, second, number; } step;
#endif

/* the gates of two pins by the formula that they are settled by: the product of the two bits, perhaps negated, each of which may
   be negated; their exclusive or, perhaps negated; a sum of some of them; any of these; and gates of more pins */
enum { PRODUCT, DIFFERENCE, SUM, ANY, MANY };

static term *terms;
static term_row *term_rows;
static gate *gates;
static step *steps;
#if WIDTH == 16 && !defined WORD
typedef part mask;
#else
typedef uint64_t mask;
#endif
/* for each function what its number's four bits stand for, in a register or in a word; the last one, where the function has a
   formula as a product, is what is added to that */
static mask masks[16][4];
static size_t term_count, row_count, gate_count, home_count;
static uint32_t inputs, *output_nets, *home_of;
static size_t output_count;

static void *grown(void *list, size_t count, size_t size)
{
    if (count & (count - 1))
        return list;
    list = realloc(list, (count ? 2 * count : 1) * size);
    if (!list)
        exit(7);
    return list;
}

static unsigned kind_of(uint32_t number)
{
#ifdef ANY_KIND
    return ANY;
#else
    return number >= 8 ? PRODUCT : number >= 6 ? DIFFERENCE : SUM;
#endif
}

static void make_steps(void)
{
    steps = malloc(gate_count * sizeof *steps);
    if (!steps)
        exit(7);
    for (size_t place = 0; place < gate_count; place++) {
        const gate *g = &gates[place];
#ifdef ROWS
        int many = 1;
#else
        int many = g->pins > 2;
#endif
        if (many) {
#ifdef LISTS
            steps[place] = (step){inputs + place, (g->home - inputs) * WORDS, MANY, 0, 0, g->flips, g->row, g->past};
#else
            steps[place] = (step){g->home, MANY, g->row, g->past, g->flips};
#endif
            continue;
        }
        uint32_t values = g->flips ? ~g->passed : g->passed; /* bit a + 2 b is the value at a and b */
        uint32_t none = values & 1, one = values >> 1 & 1, other = values >> 2 & 1, all = values >> 3 & 1;
        uint32_t first = home_of[g->pins > 0 ? g->first : 0], second = g->pins > 1 ? home_of[g->second] : first;
        uint32_t number = none | (one ^ none) << 1 | (other ^ none) << 2 | (all ^ one ^ other ^ none) << 3;
        unsigned kind = kind_of(number);
#ifdef LISTS
        int one_row = first >= inputs, other_row = second >= inputs;
        steps[place] = (step){inputs + place, (g->home - inputs) * WORDS, kind, one_row, other_row, 4 * number,
                              (first - one_row * inputs) * WORDS, (second - other_row * inputs) * WORDS};
#else
        steps[place] = (step){g->home, kind, first, second, number};
#endif
    }
    for (unsigned number = 0; number < 16; number++)
        for (int bit = 0; bit < 4; bit++) {
            unsigned added = (number ^ (number >> 1 & number >> 2)) & 1;
            masks[number][bit] = (mask){0} - (uint64_t)(bit == 3 && kind_of(number) == PRODUCT ? added : number >> bit & 1);
        }
}

/* what a gate of two pins has, from what its pins have; the masks are those of its function */
static inline part two_bits(unsigned kind, part a, part b, const mask *of)
{
    switch (kind) {
    case PRODUCT:
        return ((a ^ of[2]) & (b ^ of[1])) ^ of[3];
    case DIFFERENCE:
        return (a ^ of[0]) ^ b;
    case SUM:
        return (of[0] ^ (a & of[1])) ^ (b & of[2]);
    default:
        return (of[0] ^ (a & of[1])) ^ (b & (of[2] ^ (a & of[3])));
    }
}

static inline void two_pins(unsigned kind, lanes *to, const lanes *a, const lanes *b, const mask *masks)
{
    const mask of[4] = {masks[0], masks[1], masks[2], masks[3]};
#ifdef TURN
    for (int k = 0; k < PARTS; k++)
        to->parts[k] = two_bits(kind, a->parts[k], b->parts[k], of);
#else
    part made[PARTS];
    for (int k = 0; k < PARTS; k++)
        made[k] = two_bits(kind, a->parts[k], b->parts[k], of);
    for (int k = 0; k < PARTS; k++)
        to->parts[k] = made[k];
#endif
}

/* the lanes at a home: all homes stand in one list, or those of the inputs in another one */
static inline const lanes *lanes_at(const lanes *points, const lanes *rows, uint32_t home)
{
#ifdef LISTS
    return home < inputs ? points + home : rows + (home - inputs);
#else
    return rows + home;
#endif
}

#ifndef ROWS
__attribute__((noinline)) /* so that the registers are left to the gates of two pins */
#endif
static void settle_many(const lanes *points, lanes *rows, const step *s)
{
#ifdef LISTS
    lanes *to = (lanes *)((uint64_t *)rows + s->home);
#else
    lanes *to = rows + s->home;
#endif
    part some[PARTS];
    for (int k = 0; k < PARTS; k++)
        some[k] = (part){0};
    for (const term_row *row = term_rows + s->first, *past = term_rows + s->second; row < past; row++) {
        part each[PARTS];
        for (int k = 0; k < PARTS; k++)
            each[k] = ~(part){0};
        for (const term *t = terms + row->from, *past_term = terms + row->past; t < past_term; t++) {
            uint64_t flips = -(uint64_t)t->flips;
            const lanes *from = lanes_at(points, rows, t->home);
            for (int k = 0; k < PARTS; k++)
                each[k] &= from->parts[k] ^ flips;
        }
        for (int k = 0; k < PARTS; k++)
            some[k] |= each[k];
    }
    uint64_t flips = -(uint64_t)s->number;
    for (int k = 0; k < PARTS; k++)
        to->parts[k] = some[k] ^ flips;
}

static inline void settle_two(unsigned kind, const lanes *points, lanes *rows, const step *s)
{
#ifdef LISTS
    const lanes *a = (const lanes *)((const uint64_t *)(s->first_in_rows ? rows : points) + s->first);
    const lanes *b = (const lanes *)((const uint64_t *)(s->second_in_rows ? rows : points) + s->second);
    two_pins(kind, (lanes *)((uint64_t *)rows + s->home), a, b, &masks[0][0] + s->number);
#else
    two_pins(kind, rows + s->home, rows + s->first, rows + s->second, masks[s->number]);
#endif
}

__attribute__((noinline)) static void settle(const lanes *points, lanes *rows)
{
    for (const step *s = steps, *end = steps + gate_count; s < end; s++)
#ifdef ANY_KIND
        if (s->kind == ANY)
            settle_two(ANY, points, rows, s);
#else
        if (s->kind == PRODUCT)
            settle_two(PRODUCT, points, rows, s);
        else if (s->kind == DIFFERENCE)
            settle_two(DIFFERENCE, points, rows, s);
        else if (s->kind == SUM)
            settle_two(SUM, points, rows, s);
#endif
        else
            settle_many(points, rows, s);
}

/* ---- reading */

static uint32_t net_named(const char *name)
{
    uint32_t number = strtoul(name + 1, NULL, 10);
    return *name == 'i' ? number : inputs + number;
}

static void read_row(char *pins, uint32_t *reads, char output)
{
    gate *g = &gates[gate_count - 1];
    uint32_t from = term_count;
    for (uint32_t value = 0; value < 4; value++) {
        uint32_t passes = g->pins <= 2;
        for (uint32_t pin = 0; pin < g->pins && passes; pin++)
            passes = pins[pin] == '-' || (uint32_t)(pins[pin] - '0') == (value >> pin & 1);
        g->passed |= passes << value;
    }
    for (size_t pin = 0; pin < g->pins; pin++)
        if (pins[pin] != '-') {
            terms = grown(terms, term_count, sizeof *terms);
            terms[term_count++] = (term){reads[pin], pins[pin] == '0'};
        }
    term_rows = grown(term_rows, row_count, sizeof *term_rows);
    term_rows[row_count++] = (term_row){from, term_count};
    g->past = row_count;
    g->flips = output == '0';
}

static void read_netlist(uint32_t **reads_of, size_t *read_count)
{
    static char line[1 << 20];
    static uint32_t reads[64];
    size_t pins = 0;
    while (fgets(line, sizeof line, stdin)) {
        char *word = strtok(line, " \n");
        if (!word || *word == '#' || !strcmp(word, ".model"))
            continue;
        if (!strcmp(word, ".end"))
            return;
        if (!strcmp(word, ".inputs")) {
            while (strtok(NULL, " \n"))
                inputs++;
        } else if (!strcmp(word, ".outputs")) {
            while ((word = strtok(NULL, " \n"))) {
                output_nets = grown(output_nets, output_count, sizeof *output_nets);
                output_nets[output_count++] = net_named(word);
            }
        } else if (!strcmp(word, ".names")) {
            for (pins = 0; (word = strtok(NULL, " \n")); pins++)
                reads[pins] = net_named(word);
            pins--; /* the last name is the node's own */
            gates = grown(gates, gate_count, sizeof *gates);
            gates[gate_count++] = (gate){.row = row_count, .past = row_count, .pins = pins, .first = reads[0], .second = reads[1]};
            for (size_t pin = 0; pin < pins; pin++) {
                *reads_of = grown(*reads_of, *read_count, sizeof **reads_of);
                (*reads_of)[(*read_count)++] = reads[pin];
            }
            *reads_of = grown(*reads_of, *read_count, sizeof **reads_of);
            (*reads_of)[(*read_count)++] = UINT32_MAX;
        } else {
            read_row(word, reads, *strtok(NULL, " \n"));
        }
    }
}

/* ---- rows: a net holds one from its node to its last reader, an output to the end; inputs have homes of their own */

static void release(uint32_t net, size_t place, const size_t *ends, uint32_t *held, uint32_t *free_rows, size_t *free_count)
{
    if (ends[net] > place || held[net] == UINT32_MAX)
        return;
    free_rows[(*free_count)++] = held[net];
    held[net] = UINT32_MAX;
}

static void assign(const uint32_t *reads_of)
{
    size_t nets = inputs + gate_count, free_count = 0;
    size_t *ends = calloc(nets, sizeof *ends);
    uint32_t *held = malloc(nets * sizeof *held), *free_rows = malloc(nets * sizeof *free_rows);
    home_of = malloc(nets * sizeof *home_of);
    if (!ends || !held || !free_rows || !home_of)
        exit(7);
    memset(held, 0xff, nets * sizeof *held);
    const uint32_t *read = reads_of;
    for (size_t place = 0; place < gate_count; place++, read++)
        for (; *read != UINT32_MAX; read++)
            ends[*read] = place + 1;
    for (size_t k = 0; k < output_count; k++)
        ends[output_nets[k]] = gate_count + 1;
    for (size_t net = 0; net < inputs; net++)
        home_of[net] = home_count++;
    read = reads_of;
    for (size_t place = 0; place < gate_count; place++, read++) {
        uint32_t own = inputs + place;
        held[own] = home_of[own] = free_count ? free_rows[--free_count] : home_count++;
        gates[place].home = home_of[own];
        for (; *read != UINT32_MAX; read++)
            release(*read, place + 1, ends, held, free_rows, &free_count);
        release(own, place + 1, ends, held, free_rows, &free_count);
    }
    free(ends);
    free(held);
    free(free_rows);
}

/* Puts homes in the place of nets: the program reads rows as they stand when its gate is run. */
static void place_terms(void)
{
    for (size_t k = 0; k < term_count; k++)
        terms[k].home = home_of[terms[k].home];
}

/* ---- points and the checksum, as crates/settle_bench has them */

static const uint64_t first = 11400714819323198485u, second = 13787848793156543929u;

static uint64_t drawn_bit(uint64_t place, uint64_t input)
{
    uint64_t seed = place * first ^ input * second;
    uint64_t mixed = (seed ^ seed >> 32) * second;
    return (mixed ^ mixed >> 29) * first >> 63;
}

static void put_points(lanes *points)
{
    for (uint64_t input = 0; input < inputs; input++) {
        uint64_t words[WORDS] = {0};
        for (uint64_t place = 0; place < POINTS; place++)
            words[place / 64] |= drawn_bit(place, input) << place % 64;
        memcpy(&points[input], words, sizeof words);
    }
}

static uint64_t sum_of(const lanes *points, const lanes *rows)
{
    uint64_t sum = 1;
    for (size_t k = 0; k < output_count; k++) {
        uint64_t words[WORDS];
        memcpy(words, lanes_at(points, rows, home_of[output_nets[k]]), sizeof words);
        for (int word = 0; word < WORDS; word++)
            sum = (sum ^ words[word]) * 1099511628211u;
    }
    return sum;
}

static lanes *room(size_t count)
{
    lanes *list = aligned_alloc(128, (count ? count : 1) * sizeof *list);
    if (!list)
        exit(7);
    return list;
}

int main(int count, char **words)
{
    uint32_t *reads_of = NULL;
    size_t read_count = 0;
    read_netlist(&reads_of, &read_count);
    assign(reads_of);
    place_terms();
    make_steps();
#ifdef LISTS
    lanes *points = room(inputs), *rows = room(home_count - inputs);
#else
    lanes *rows = room(home_count), *points = rows;
#endif
    put_points(points);
    unsigned long long settles = count > 1 ? strtoull(words[1], NULL, 10) : 0;
    for (unsigned long long k = 0; k < settles; k++)
        settle(points, rows);
    settle(points, rows);
    printf("%llu\n", (unsigned long long)sum_of(points, rows));
    return 0;
}
