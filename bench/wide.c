/* What `tsc audit wide` builds, by the same algorithm as the crates `diagrams`, `cover_diagrams`, `circuit_diagrams` and `wide_diagrams`: the
   functions that a source and a netlist with its plan state, as rows of a reduced ordered decision diagram. A row is one word: the input that
   it decides in 11 bits, and the rows where that is 0 and where it is 1 in 22 bits each. A memo keeps what an operation made of two rows: it
   has two to four places for each row, and forgets all when it grows. The same functions are built in the same order, and no row is given
   back. It tries no structure and no checker, as `tsc audit wide` does, so it does less. An operation calls itself here, where the crate has a stack.

   wide ROWS < TEXT, where TEXT is a network that ends with a line `.end` and behind it a netlist that `tsc synth` writes, prints `yes N`,
   N being the number of rows that were used; `no N` where the word or an output is wrong somewhere; or `limit ROWS`. With -DBUDDY the rows
   are those of the library BuDDy, which has no limit here and gives rows back; N is then how many it has at the end. */
#define main audit_main
#include "audit.c"
#undef main

enum operation { AND, OR, XOR };

#ifdef BUDDY

#include <bdd.h>

typedef int row;

static void open_rows(uint32_t inputs, uint32_t room_for)
{
    (void)room_for;
    bdd_init(1000000, 1000000);
    bdd_setcacheratio(4);
    bdd_setmaxincrease(4000000);
    bdd_gbc_hook(NULL);
    bdd_setvarnum(inputs ? (int)inputs : 1);
}

static uint32_t rows_used(void) { return (uint32_t)bdd_getnodenum(); }

static row variable(uint32_t input) { return bdd_ithvar((int)input); }

static row combine(enum operation operation, row first, row second)
{
    static const int names[] = {bddop_and, bddop_or, bddop_xor};
    return bdd_addref(bdd_apply(first, second, names[operation]));
}

#else

typedef uint32_t row;
typedef struct { uint32_t operation, first, second, result; } memo;

static uint64_t *rows;
static uint32_t *places, place_count; /* the table of rows: the row that stands at a place, or 0 */
static uint32_t row_count, row_room;
static memo *memos;
static uint32_t memo_count;

static uint32_t level_of(row r) { return (uint32_t)(rows[r] >> 44); }
static row low_of(row r) { return rows[r] >> 22 & 0x3fffff; }
static row high_of(row r) { return rows[r] & 0x3fffff; }

static void *grown(void *list, size_t size)
{
    list = realloc(list, size);
    if (!list)
        exit(7);
    return list;
}

static uint32_t place_of(uint64_t word)
{
    word *= 0x9e3779b97f4a7c15u;
    return (uint32_t)(word >> 32) & (place_count - 1);
}

static void spread_rows(void)
{
    free(places);
    place_count = place_count ? 2 * place_count : 1024;
    places = calloc(place_count, sizeof *places);
    if (!places)
        exit(7);
    for (row r = 2; r < row_count; r++) {
        uint32_t place = place_of(rows[r]);
        while (places[place])
            place = (place + 1) & (place_count - 1);
        places[place] = r;
    }
}

static void widen(void)
{
    if (row_count < memo_count)
        return;
    memo_count = memo_count ? 2 * memo_count : 1024;
    free(memos);
    memos = calloc(memo_count, sizeof *memos); /* 0 and 0 are 0 */
    if (!memos)
        exit(7);
}

static void open_rows(uint32_t inputs, uint32_t room_for)
{
    row_room = room_for;
    rows = grown(NULL, row_room * sizeof *rows);
    rows[0] = (uint64_t)inputs << 44;
    rows[1] = (uint64_t)inputs << 44 | (uint64_t)1 << 22 | 1;
    row_count = 2;
    widen();
    spread_rows();
}

static uint32_t rows_used(void) { return row_count; }

static row node(uint32_t input, row low, row high)
{
    if (low == high)
        return low;
    uint64_t word = (uint64_t)input << 44 | (uint64_t)low << 22 | high;
    uint32_t place = place_of(word);
    for (; places[place]; place = (place + 1) & (place_count - 1))
        if (rows[places[place]] == word)
            return places[place];
    if (row_count == row_room) {
        printf("limit %u\n", row_room);
        exit(4);
    }
    widen();
    rows[row_count] = word;
    places[place] = row_count++;
    if (2 * row_count > place_count)
        spread_rows();
    return row_count - 1;
}

static row variable(uint32_t input) { return node(input, 0, 1); }

/* What an operation makes of two rows, where a constant or their equality decides it. */
static int decided(enum operation operation, row first, row second, row *result)
{
    switch (operation) {
    case AND:
        if (first == 0 || second == 0)
            return *result = 0, 1;
        if (first == 1 || first == second)
            return *result = second, 1;
        return second == 1 ? (*result = first, 1) : 0;
    case OR:
        if (first == 1 || second == 1)
            return *result = 1, 1;
        if (first == 0 || first == second)
            return *result = second, 1;
        return second == 0 ? (*result = first, 1) : 0;
    default:
        if (first == second)
            return *result = 0, 1;
        if (first == 0)
            return *result = second, 1;
        return second == 0 ? (*result = first, 1) : 0;
    }
}

static memo *memo_of(enum operation operation, row first, row second)
{
    uint64_t mixed = (uint64_t)first * 12582917 + (uint64_t)second * 4256249 + operation * 741457;
    return memos + (mixed & (memo_count - 1));
}

static row combine(enum operation operation, row first, row second)
{
    row result;
    if (decided(operation, first, second, &result))
        return result;
    const memo *known = memo_of(operation, first, second);
    if (known->operation == operation && known->first == first && known->second == second)
        return known->result;
    uint32_t one = level_of(first), other = level_of(second), level = one < other ? one : other;
    row low = combine(operation, one == level ? low_of(first) : first, other == level ? low_of(second) : second);
    row high = combine(operation, one == level ? high_of(first) : first, other == level ? high_of(second) : second);
    result = node(level, low, high);
    *memo_of(operation, first, second) = (memo){operation, first, second, result};
    return result;
}

#endif

static row negated(row r) { return combine(XOR, r, 1); }

/* ---- netlists */

/* Whether the rows of a gate are an off-set. Of a gate of at most two pins audit.c keeps the function alone. */
static int is_off_set(const netlist *n, const gate *g)
{
    if (g->pins > 2)
        return g->number != 0;
    int some = 0;
    for (uint32_t at = g->row; at < g->past; at++) {
        int all = 1;
        for (uint32_t t = n->term_rows[at].from; t < n->term_rows[at].past; t++)
            all &= (int)n->terms[t].flips;
        some |= all;
    }
    return some != (int)(g->number & 1);
}

static row gate_row(const netlist *n, const gate *g, const row *nets)
{
    row some = 0;
    for (uint32_t at = g->row; at < g->past; at++) {
        row all = 1;
        for (uint32_t t = n->term_rows[at].from; t < n->term_rows[at].past; t++) {
            row pin = nets[n->terms[t].net];
            all = combine(AND, all, n->terms[t].flips ? negated(pin) : pin);
        }
        some = combine(OR, some, all);
    }
    return is_off_set(n, g) ? negated(some) : some;
}

static void mark(const netlist *n, char *needed, uint32_t net)
{
    if (net >= n->given)
        needed[net - n->given] = 1;
}

/* The rows of the inputs, and of the nodes that some nets depend on, in their evaluation order. */
static row *net_rows(const netlist *n, const uint32_t *roots, uint32_t root_count)
{
    row *nets = room(n->nets.count, sizeof *nets);
    char *needed = room(n->nodes + 1, 1);
    for (uint32_t k = 0; k < root_count; k++)
        mark(n, needed, roots[k]);
    for (uint32_t place = n->nodes; place-- > 0;) {
        uint32_t node = n->gates[place].net - n->given;
        for (uint32_t read = n->reads_from[node]; needed[node] && read < n->reads_past[node]; read++)
            mark(n, needed, n->reads[read]);
    }
    for (uint32_t input = 0; input < n->inputs; input++)
        nets[input] = variable(input);
    for (uint32_t place = 0; place < n->nodes; place++)
        if (needed[n->gates[place].net - n->given])
            nets[n->gates[place].net] = gate_row(n, &n->gates[place], nets);
    return nets;
}

/* ---- checkers: each gate once, in the order of a walk over the first and then the second rail; operands stand before their gate */

typedef struct { row first, second; } pair;

static pair cell(pair x, pair y)
{
    row left = combine(AND, x.first, y.first), right = combine(AND, x.second, y.second);
    row straight = combine(OR, left, right);
    left = combine(AND, x.first, y.second), right = combine(AND, x.second, y.first);
    return (pair){straight, combine(OR, left, right)};
}

static row rails_differ(pair *pairs, uint32_t count)
{
    while (count > 1) {
        uint32_t made = 0, at = 0;
        for (; at + 1 < count; at += 2)
            pairs[made++] = cell(pairs[at], pairs[at + 1]);
        if (at < count)
            pairs[made++] = pairs[at];
        count = made;
    }
    return combine(XOR, pairs[0].first, pairs[0].second);
}

static uint32_t parity_pairs(const netlist *n, const row *word, pair *pairs)
{
    for (uint32_t g = 0; g < n->group_count; g++) {
        row odd = 0;
        for (uint64_t left = n->groups[g]; left; left &= left - 1) {
            row output = word[__builtin_ctzll(left)];
            odd = left == n->groups[g] ? output : combine(XOR, odd, output);
        }
        pairs[g] = (pair){odd, word[n->outputs - 2 + g]};
    }
    return n->group_count;
}

static uint32_t berger_pairs(const netlist *n, const row *word, pair *pairs)
{
    uint32_t outputs = n->outputs - 2, bits = 0;
    row count[8];
    for (uint32_t o = 0; o < outputs; o++) {
        row carry = negated(word[o]);
        for (uint32_t bit = 0; bit < bits; bit++) {
            row sum = combine(XOR, count[bit], carry);
            carry = combine(AND, count[bit], carry);
            count[bit] = sum;
        }
        if (o + 1 == 1u << bits)
            count[bits++] = carry;
    }
    for (uint32_t bit = 0; bit < bits; bit++)
        pairs[bit] = (pair){negated(count[bits - 1 - bit]), word[outputs + bit]};
    return bits;
}

static void thresholds(const row *list, uint32_t count, row *made)
{
    for (uint32_t k = 0; k < count; k++) {
        row carried = list[k];
        for (uint32_t at = 0; at < k; at++) {
            row more = combine(OR, made[at], carried);
            carried = combine(AND, made[at], list[k]);
            made[at] = more;
        }
        made[k] = carried;
    }
}

static uint32_t mofn_pairs(const netlist *n, const row *word, pair *pairs)
{
    uint32_t m = n->outputs - 2, checks = n->checks;
    row firsts[MOST], seconds[MOST], halves[2];
    int there[2] = {0, 0};
    thresholds(word, m, firsts);
    thresholds(word + m, checks, seconds);
    for (uint32_t t = 0; t <= checks; t++) {
        uint32_t i = m + t > checks ? m + t - checks : 0, j = checks > t ? checks - t : 0;
        row term = i == 0 ? seconds[j - 1] : j == 0 ? firsts[i - 1] : combine(AND, firsts[i - 1], seconds[j - 1]);
        int half = t % 2;
        halves[half] = there[half] ? combine(OR, halves[half], term) : term;
        there[half] = 1;
    }
    uint32_t start = (m + checks + 1) % 2;
    pairs[0] = (pair){halves[start], halves[1 - start]};
    return 1;
}

/* ---- the audit */

static const char *verdict(const netlist *source, const netlist *n)
{
    uint32_t outputs = n->outputs - 2, checks = n->code == 'p' ? n->group_count : n->checks, roots[2 * MOST];
    row word[2 * MOST], wrong = 0;
    pair pairs[MOST];
    const row *wanted = net_rows(source, source->output, source->outputs);
    memcpy(roots, n->output, outputs * sizeof *roots);
    memcpy(roots + outputs, n->check, checks * sizeof *roots);
    const row *nets = net_rows(n, roots, outputs + checks);
    for (uint32_t k = 0; k < outputs + checks; k++)
        word[k] = nets[roots[k]];
    uint32_t count = n->code == 'p' ? parity_pairs(n, word, pairs) : n->code == 'b' ? berger_pairs(n, word, pairs) : mofn_pairs(n, word, pairs);
    row differ = rails_differ(pairs, count);
    for (uint32_t o = 0; o < outputs; o++)
        wrong |= combine(XOR, wanted[source->output[o]], word[o]);
    return differ == 1 && !wrong ? "yes" : "no";
}

int main(int words, char **given)
{
    char *text = standard_input();
    char *end = strstr(text, "\n.end\n");
    if (!end || words < 2)
        return 2;
    *end = 0;
    static netlist source, behind;
    read_netlist(&source, text);
    read_netlist(&behind, end + strlen("\n.end\n"));
    if (source.inputs != behind.inputs || source.outputs + 2 != behind.outputs || behind.latches)
        return 1;
    open_rows(source.inputs, (uint32_t)strtoul(given[1], NULL, 10));
    const char *told = verdict(&source, &behind);
    printf("%s %u\n", told, rows_used());
    return *told != 'y';
}
