/* What step lines show of each listed fault of a netlist that is present from step 0 on: the answer of `tsc grade`.

       grades < TEXT           by the method of `tsc grade`: 1,023 faults at once, one fault per lane, beside the run without a fault in lane 0. A
                               batch ends when all its lanes are decided. All faults run over the first 16 steps, those that are undecided then
                               over 128, over 1,024 and so on, each time from step 0 on
       grades plain < TEXT     one run per fault, one net after another and one bit at a time

   The text is a netlist with its #tsc lines and the step lines after it. It has to be one that `tsc grade` takes: what that refuses isn't looked
   for. WIDTH is the number of bytes of the vectors that the lanes of a net are worked on with. */
#include <stdint.h>
#include <stdio.h>
#include <stdlib.h>
#include <string.h>

#ifndef WIDTH
#define WIDTH 16
#endif
enum { LANES = 1024, WORDS = LANES / 64, PARTS = LANES / 8 / WIDTH };
static const uint32_t NONE = UINT32_MAX;

typedef uint64_t part __attribute__((vector_size(WIDTH)));
typedef union { part parts[PARTS]; uint64_t words[WORDS]; } lanes;
typedef struct { uint32_t pin, flips; } literal;
typedef struct { uint32_t from, past; } literals;
/* a node: the net that it drives, its pins, and its rows; `bit` is the one that a matching row gives. Of at most two pins also the number of
   its function: 1 for a constant, 2 and 4 for the bits at its pins, 8 for their product */
typedef struct { uint32_t net, pins, row, past, number; int bit; const uint32_t *reads; } gate;
/* a stem (pin NONE), or a pin of the node or latch that drives the net, and the bit at which it is held */
typedef struct { uint32_t net, pin; int held; } fault;
typedef enum { UNSEEN, ALARM, SILENT } kind;
typedef struct { kind kind; uint32_t step; } grade;

static char **words;    /* of all lines */
static size_t *lines;   /* the place of the first word of each line, and after the last line that past all words */
static size_t line_count, step_line, step_count;
static char **names;    /* of nets: inputs, latches, nodes */
static uint32_t *hashed, buckets; /* one more than the net of a name */
static uint32_t inputs, latches, nodes, nets, outputs;
static uint32_t *latch_reads, *output_nets, *pin_nets;
static char *first_bits; /* of latches */
static gate *gates;      /* in text order */
static uint32_t *order;
static literal *all_literals;
static literals *rows_of;
static fault *faults;
static grade *grades;
static size_t fault_count;

static void *room(size_t count, size_t size)
{
    size_t bytes = (count * size + 128) / 128 * 128;
    void *list = aligned_alloc(128, bytes);
    if (!list)
        exit(7);
    memset(list, 0, bytes);
    return list;
}

/* ---- reading */

static char *read_text(void)
{
    size_t length = 0, size = 1 << 20;
    char *text = malloc(size);
    for (size_t got; (got = fread(text + length, 1, size - length - 1, stdin)) > 0;) {
        length += got;
        if (length + 1 == size)
            text = realloc(text, size *= 2);
    }
    text[length] = 0;
    return text;
}

/* Makes each logical line one line, in place: without its comment, and with a line that goes on joined to the next one. */
static void join_lines(char *text)
{
    char *to = text;
    int joined = 0;
    for (char *at = text, *next; *at; at = next) {
        size_t length = strcspn(at, "\n"), kept = strcspn(at, "#\n");
        next = at + length + (at[length] == '\n');
        if (kept == length && kept && at[kept - 1] == '\r')
            kept--;
        joined = kept && at[kept - 1] == '\\';
        memmove(to, at, kept);
        to += kept;
        if (joined)
            to[-1] = ' ';
        if (!joined || !*next)
            *to++ = '\n';
    }
    *to = 0;
}

static void split_lines(char *text)
{
    size_t most_words = 1, most_lines = 2, word = 0;
    for (char *at = text; *at; at++)
        most_words += *at == ' ' || *at == '\t' || *at == '\n', most_lines += *at == '\n';
    words = room(most_words, sizeof *words);
    lines = room(most_lines, sizeof *lines);
    for (char *at = text; *at;) {
        char *end = strchr(at, '\n');
        *end = 0;
        for (lines[line_count] = word; *(at += strspn(at, " \t\r"));) {
            words[word++] = at;
            at += strcspn(at, " \t\r");
            if (*at)
                *at++ = 0;
        }
        line_count += word > lines[line_count];
        at = end + 1;
    }
    lines[line_count] = word;
}

static uint32_t place_of_name(const char *name)
{
    uint32_t hash = 2166136261u;
    for (const char *at = name; *at; at++)
        hash = (hash ^ (unsigned char)*at) * 16777619u;
    for (hash &= buckets - 1; hashed[hash] && strcmp(names[hashed[hash] - 1], name);)
        hash = (hash + 1) & (buckets - 1);
    return hash;
}

static void add_net(char *name)
{
    names[nets] = name;
    hashed[place_of_name(name)] = ++nets;
}

static uint32_t net_named(const char *name)
{
    return hashed[place_of_name(name)] - 1;
}

static int is(size_t line, const char *word)
{
    return !strcmp(words[lines[line]], word);
}

/* The nets: inputs, then latches, then nodes, each in text order; and where the step lines begin. */
static void number_nets(void)
{
    for (step_line = 0; step_line < line_count && !is(step_line, ".end"); step_line++)
        ;
    size_t past = lines[step_line];
    for (buckets = 1; buckets < 2 * past + 2; buckets *= 2)
        ;
    hashed = room(buckets, sizeof *hashed);
    names = room(past + 1, sizeof *names);
    for (size_t line = 0; line < step_line; line++)
        for (size_t word = lines[line] + 1; is(line, ".inputs") && word < lines[line + 1]; word++, inputs++)
            add_net(words[word]);
    for (size_t line = 0; line < step_line; line++)
        if (is(line, ".latch"))
            add_net(words[lines[line] + 2]), latches++;
    for (size_t line = 0; line < step_line; line++)
        if (is(line, ".names"))
            add_net(words[lines[line + 1] - 1]), nodes++;
    step_line += step_line < line_count;
    step_count = line_count - step_line;
}

/* A row of a cover, which has the literals from `from` on; answers how many literals there are then. */
static uint32_t add_row(gate *g, const char *cube, uint32_t from)
{
    uint32_t past = from;
    for (uint32_t pin = 0; pin < g->pins; pin++)
        if (cube[pin] != '-')
            all_literals[past++] = (literal){pin, cube[pin] == '0'};
    rows_of[g->past++] = (literals){from, past};
    return past;
}

static void read_netlist(void)
{
    uint32_t latch = 0, node = 0, row = 0, literal_count = 0;
    size_t pin = 0, bytes = 1, word_count = lines[step_line];
    for (size_t word = 0; word < word_count; word++)
        bytes += strlen(words[word]);
    all_literals = room(bytes, sizeof *all_literals);
    rows_of = room(step_line + 1, sizeof *rows_of);
    pin_nets = room(word_count + 1, sizeof *pin_nets);
    output_nets = room(word_count + 1, sizeof *output_nets);
    latch_reads = room(latches + 1, sizeof *latch_reads);
    first_bits = room(latches + 1, 1);
    gates = room(nodes + 1, sizeof *gates);
    for (size_t line = 0; line < step_line; line++) {
        size_t first = lines[line], past = lines[line + 1];
        if (is(line, ".outputs")) {
            for (size_t word = first + 1; word < past; word++)
                output_nets[outputs++] = net_named(words[word]);
        } else if (is(line, ".latch")) {
            latch_reads[latch] = net_named(words[first + 1]);
            first_bits[latch++] = *words[past - 1] == '1';
        } else if (is(line, ".names")) {
            gates[node] = (gate){.net = inputs + latches + node, .pins = past - first - 2, .row = row, .past = row, .bit = 1, .reads = pin_nets + pin};
            for (size_t word = first + 1; word < past - 1; word++)
                pin_nets[pin++] = net_named(words[word]);
            node++;
        } else if (*words[first] != '.') {
            gates[node - 1].bit = *words[past - 1] == '1';
            literal_count = add_row(&gates[node - 1], words[first], literal_count);
            row++;
        }
    }
}

/* The nodes, each after those that it reads: depth first from each node in text order. */
static void put_order(void)
{
    char *listed = room(nodes, 1);
    uint32_t *stack = room(nodes + 1, sizeof *stack), *at_pin = room(nodes, sizeof *at_pin), place = 0;
    order = room(nodes, sizeof *order);
    for (uint32_t from = 0; from < nodes; from++) {
        uint32_t depth = 0;
        if (!listed[from])
            stack[depth++] = from, listed[from] = 1;
        while (depth) {
            uint32_t node = stack[depth - 1];
            if (at_pin[node] == gates[node].pins) {
                order[place++] = node;
                depth--;
                continue;
            }
            uint32_t net = gates[node].reads[at_pin[node]++];
            if (net >= inputs + latches && !listed[net - inputs - latches])
                stack[depth++] = net - inputs - latches, listed[net - inputs - latches] = 1;
        }
    }
}

static void list_faults(void)
{
    size_t pins = latches;
    for (uint32_t node = 0; node < nodes; node++)
        pins += gates[node].pins;
    faults = room(2 * (latches + nodes + pins), sizeof *faults);
    for (uint32_t net = inputs; net < nets; net++) {
        uint32_t count = net < inputs + latches ? 1 : gates[net - inputs - latches].pins;
        for (uint32_t place = 0; place <= count; place++)
            for (int held = 0; held < 2; held++)
                faults[fault_count++] = (fault){net, place ? place - 1 : NONE, held};
    }
    grades = room(fault_count, sizeof *grades);
}

static const char *step_word(size_t step)
{
    return words[lines[step_line + step]];
}

/* ---- one run per fault */

static int is_at(const fault *f, uint32_t net, uint32_t pin)
{
    return f->net == net && f->pin == pin;
}

/* The bit of a node where the nets have these. */
static int bit_of(const gate *g, const char *bits, const fault *f)
{
    for (uint32_t row = g->row; row < g->past; row++) {
        int all = 1;
        for (uint32_t at = rows_of[row].from; at < rows_of[row].past; at++) {
            const literal *l = all_literals + at;
            int bit = is_at(f, g->net, l->pin) ? f->held : bits[g->reads[l->pin]];
            all &= bit != (int)l->flips;
        }
        if (all)
            return g->bit;
    }
    return !g->bit;
}

static void settle_bits(char *bits, const char *state, const char *step, const fault *f)
{
    for (uint32_t input = 0; input < inputs; input++)
        bits[input] = step[input] == '1';
    for (uint32_t latch = 0; latch < latches; latch++)
        bits[inputs + latch] = is_at(f, inputs + latch, NONE) ? f->held : state[latch];
    for (uint32_t place = 0; place < nodes; place++) {
        const gate *g = &gates[order[place]];
        bits[g->net] = is_at(f, g->net, NONE) ? f->held : bit_of(g, bits, f);
    }
}

static void take_bits(const char *bits, char *state, const fault *f)
{
    for (uint32_t latch = 0; latch < latches; latch++)
        state[latch] = is_at(f, inputs + latch, 0) ? f->held : bits[latch_reads[latch]];
}

static char *right; /* of each step the bits of the outputs without a fault */

/* What a settled step shows: the alarm before a wrong output. */
static kind seen_in(const char *bits, size_t step)
{
    if (bits[output_nets[outputs - 2]] == bits[output_nets[outputs - 1]])
        return ALARM;
    for (uint32_t output = 0; output + 2 < outputs; output++)
        if (bits[output_nets[output]] != right[step * outputs + output])
            return SILENT;
    return UNSEEN;
}

static void grade_plainly(void)
{
    char *bits = room(nets, 1), *state = room(latches, 1);
    fault none = {NONE, NONE, 0};
    right = room(step_count * outputs + 1, 1);
    memcpy(state, first_bits, latches);
    for (size_t step = 0; step < step_count; step++) {
        settle_bits(bits, state, step_word(step), &none);
        take_bits(bits, state, &none);
        for (uint32_t output = 0; output < outputs; output++)
            right[step * outputs + output] = bits[output_nets[output]];
    }
    for (size_t k = 0; k < fault_count; k++) {
        memcpy(state, first_bits, latches);
        for (size_t step = 0; step < step_count && grades[k].kind == UNSEEN; step++) {
            settle_bits(bits, state, step_word(step), &faults[k]);
            take_bits(bits, state, &faults[k]);
            grades[k] = (grade){seen_in(bits, step), step};
        }
    }
}

/* ---- one fault per lane */

static lanes *rows, *states, *at_pins, undecided;
static uint32_t *newest, older[LANES]; /* of a net the last lane whose fault is there, and of a lane the one before; 0 for none */
static size_t batch[LANES];            /* of a lane the place of its fault */
static uint64_t masks[16][4];

static int passes(const gate *g, int a, int b)
{
    for (uint32_t row = g->row; row < g->past; row++) {
        int all = 1;
        for (uint32_t at = rows_of[row].from; at < rows_of[row].past; at++)
            all &= (all_literals[at].pin ? b : a) ^ (int)all_literals[at].flips;
        if (all)
            return g->bit;
    }
    return !g->bit;
}

static void put_numbers(void)
{
    for (uint32_t node = 0; node < nodes; node++) {
        gate *g = &gates[node];
        if (g->pins > 2)
            continue;
        unsigned none = passes(g, 0, 0), one = passes(g, 1, 0), other = passes(g, 0, 1), all = passes(g, 1, 1);
        g->number = none | (one ^ none) << 1 | (other ^ none) << 2 | (all ^ one ^ other ^ none) << 3;
    }
    for (unsigned number = 0; number < 16; number++)
        for (int bit = 0; bit < 4; bit++)
            masks[number][bit] = -(uint64_t)(number >> bit & 1);
}

static void hold(lanes *row, uint32_t lane, int held)
{
    uint64_t bit = (uint64_t)1 << lane % 64;
    row->words[lane / 64] = held ? row->words[lane / 64] | bit : row->words[lane / 64] & ~bit;
}

static void fill(lanes *row, int bit)
{
    memset(row, bit ? 0xff : 0, sizeof *row);
}

static void settle_two(const gate *g, const lanes *a, const lanes *b, lanes *to)
{
    const uint64_t *of = masks[g->number];
    for (int k = 0; k < PARTS; k++) {
        part x = a->parts[k], y = b->parts[k];
        to->parts[k] = (of[0] ^ (x & of[1])) ^ (y & (of[2] ^ (x & of[3])));
    }
}

/* A node of more pins, whose lanes stand at the pins where `at` is given, and else at the nets that they read. */
static void settle_many(const gate *g, const lanes *at, lanes *to)
{
    part some[PARTS];
    for (int k = 0; k < PARTS; k++)
        some[k] = (part){0};
    for (const literals *row = rows_of + g->row, *past = rows_of + g->past; row < past; row++) {
        part each[PARTS];
        for (int k = 0; k < PARTS; k++)
            each[k] = ~(part){0};
        for (const literal *l = all_literals + row->from, *end = all_literals + row->past; l < end; l++) {
            const lanes *from = at ? at + l->pin : rows + g->reads[l->pin];
            uint64_t flips = -(uint64_t)l->flips;
            for (int k = 0; k < PARTS; k++)
                each[k] &= from->parts[k] ^ flips;
        }
        for (int k = 0; k < PARTS; k++)
            some[k] |= each[k];
    }
    uint64_t flips = -(uint64_t)!g->bit;
    for (int k = 0; k < PARTS; k++)
        to->parts[k] = some[k] ^ flips;
}

static void settle_free(const gate *g)
{
    if (g->pins > 2)
        settle_many(g, NULL, rows + g->net);
    else
        settle_two(g, rows + (g->pins ? g->reads[0] : 0), rows + (g->pins > 1 ? g->reads[1] : 0), rows + g->net);
}

/* Holds the lanes whose fault is the stem of a net. */
static void hold_stems(uint32_t net)
{
    for (uint32_t lane = newest[net]; lane; lane = older[lane])
        if (faults[batch[lane]].pin == NONE)
            hold(rows + net, lane, faults[batch[lane]].held);
}

/* Holds the lanes whose fault is a pin of what drives a net. */
static void hold_pins(uint32_t net, lanes *at)
{
    for (uint32_t lane = newest[net]; lane; lane = older[lane])
        if (faults[batch[lane]].pin != NONE)
            hold(at + faults[batch[lane]].pin, lane, faults[batch[lane]].held);
}

/* A node that has faults of the batch. */
static void settle_held(const gate *g)
{
    for (uint32_t pin = 0; pin < g->pins; pin++)
        at_pins[pin] = rows[g->reads[pin]];
    hold_pins(g->net, at_pins);
    if (g->pins > 2)
        settle_many(g, at_pins, rows + g->net);
    else
        settle_two(g, at_pins, at_pins + (g->pins > 1), rows + g->net);
    hold_stems(g->net);
}

static void take_step(const char *step)
{
    for (uint32_t input = 0; input < inputs; input++)
        fill(rows + input, step[input] == '1');
    for (uint32_t latch = 0; latch < latches; latch++) {
        rows[inputs + latch] = states[latch];
        hold_stems(inputs + latch);
    }
    for (uint32_t place = 0; place < nodes; place++) {
        const gate *g = &gates[order[place]];
        if (newest[g->net])
            settle_held(g);
        else
            settle_free(g);
    }
    for (uint32_t latch = 0; latch < latches; latch++) {
        states[latch] = rows[latch_reads[latch]];
        hold_pins(inputs + latch, states + latch);
    }
}

/* Grades the undecided lanes in which the step shows something, and says whether some are left. */
static int grade_step(uint32_t step)
{
    lanes wrong = {{{0}}};
    const lanes *one = rows + output_nets[outputs - 2], *other = rows + output_nets[outputs - 1];
    for (uint32_t output = 0; output + 2 < outputs; output++) {
        const lanes *row = rows + output_nets[output];
        uint64_t bit = -(row->words[0] & 1);
        for (int k = 0; k < PARTS; k++)
            wrong.parts[k] |= row->parts[k] ^ bit;
    }
    uint64_t left = 0;
    for (int word = 0; word < WORDS; word++) {
        uint64_t agree = ~(one->words[word] ^ other->words[word]), seen = undecided.words[word] & (agree | wrong.words[word]);
        undecided.words[word] &= ~seen;
        left |= undecided.words[word];
        for (; seen; seen &= seen - 1) {
            int bit = __builtin_ctzll(seen);
            grades[batch[word * 64 + bit]] = (grade){agree >> bit & 1 ? ALARM : SILENT, step};
        }
    }
    return left != 0;
}

/* Puts the next undecided faults, from this place on, into the lanes after lane 0, and answers how many they are. */
static uint32_t put_batch(size_t *from)
{
    uint32_t lane = 0;
    memset(newest, 0, nets * sizeof *newest);
    fill(&undecided, 0);
    for (; *from < fault_count && lane + 1 < LANES; ++*from) {
        if (grades[*from].kind != UNSEEN)
            continue;
        batch[++lane] = *from;
        older[lane] = newest[faults[*from].net];
        newest[faults[*from].net] = lane;
        hold(&undecided, lane, 1);
    }
    for (uint32_t latch = 0; latch < latches; latch++)
        fill(states + latch, first_bits[latch]);
    return lane;
}

static void grade_by_lanes(void)
{
    uint32_t most_pins = 2;
    for (uint32_t node = 0; node < nodes; node++)
        if (gates[node].pins > most_pins)
            most_pins = gates[node].pins;
    put_numbers();
    rows = room(nets + 1, sizeof *rows);
    states = room(latches, sizeof *states);
    at_pins = room(most_pins, sizeof *at_pins);
    newest = room(nets + 1, sizeof *newest);
    for (size_t limit = 0; limit < step_count;) {
        limit = !limit && step_count > 16 ? 16 : limit && limit < step_count / 8 ? limit * 8 : step_count;
        for (size_t from = 0; put_batch(&from);)
            for (size_t step = 0; step < limit; step++) {
                take_step(step_word(step));
                if (!grade_step(step))
                    break;
            }
    }
}

/* ---- the answer */

static void print_grades(void)
{
    size_t counts[3] = {0};
    for (size_t k = 0; k < fault_count; k++) {
        const char *name = names[faults[k].net];
        counts[grades[k].kind]++;
        if (faults[k].pin == NONE)
            printf("stem %s %d", name, faults[k].held);
        else
            printf("pin %s %u %d", name, faults[k].pin, faults[k].held);
        if (grades[k].kind == UNSEEN)
            printf(" unseen\n");
        else
            printf(" %s %u\n", grades[k].kind == ALARM ? "alarm" : "silent", grades[k].step);
    }
    printf("alarm %zu silent %zu unseen %zu\n", counts[ALARM], counts[SILENT], counts[UNSEEN]);
}

int main(int argc, char **argv)
{
    char *text = read_text();
    join_lines(text);
    split_lines(text);
    number_nets();
    read_netlist();
    put_order();
    list_faults();
    if (argc == 2 && !strcmp(argv[1], "plain"))
        grade_plainly();
    else if (argc == 1)
        grade_by_lanes();
    else
        return 2;
    print_grades();
    return 0;
}
