/* The walk of an exact audit over all points, by the same algorithm as the crate `unheard_cells`: at each batch of 1,024 points the netlist
   is settled, its behaviour compared as audit.c does, then the rails are read without a fault, and each cell is tried with its net held at 0
   and at 1. Only what a held net changes is settled again, along the order; words are compared as they are written; then the lanes that
   changed are put back. The batch with the first unheard cell ends it. A node that no output and no net at a latch input depends on isn't
   tried.

   exact < TEXT, where TEXT is what audit.c takes, prints `yes`; `no` where the netlist doesn't follow its source; `no quiet STATE INPUT` or
   `no alarm NET V STATE INPUT`, the state by its number, the input as its bits. */
#define main audit_main
#include "audit.c"
#undef main

typedef struct {
    uint32_t *from, *places; /* of each net the places whose gates read it */
    uint32_t *place;         /* of each node */
    uint64_t *marked;        /* a bit a place */
    lanes *right;            /* of each net that is written, what it has without a fault */
    uint32_t *written, count;
    char *shown, *live; /* of each net whether it is seen from outside; of each node whether something shown depends on it */
} cells;

static void make_cells(cells *c, const netlist *n)
{
    uint32_t reads = n->nodes ? n->reads_past[n->nodes - 1] : 0;
    c->from = room(n->nets.count + 1, sizeof *c->from);
    c->places = room(reads + 1, sizeof *c->places);
    c->place = room(n->nodes + 1, sizeof *c->place);
    c->marked = room(n->nodes / 64 + 1, sizeof *c->marked);
    c->right = room(n->nets.count, sizeof *c->right);
    c->written = room(n->nets.count, sizeof *c->written);
    c->shown = room(n->nets.count, 1);
    c->live = room(n->nodes + 1, 1);
    for (uint32_t read = 0; read < reads; read++)
        c->from[n->reads[read] + 1]++;
    for (uint32_t net = 0; net < n->nets.count; net++)
        c->from[net + 1] += c->from[net];
    uint32_t *next = room(n->nets.count + 1, sizeof *next);
    memcpy(next, c->from, (n->nets.count + 1) * sizeof *next);
    for (uint32_t place = 0; place < n->nodes; place++) {
        uint32_t node = n->gates[place].net - n->given;
        c->place[node] = place;
        for (uint32_t read = n->reads_from[node]; read < n->reads_past[node]; read++)
            c->places[next[n->reads[read]]++] = place;
    }
    for (uint32_t o = 0; o + 2 < n->outputs; o++)
        c->shown[n->output[o]] = 1;
    for (uint32_t latch = 0; latch < n->latches; latch++)
        c->shown[n->next[latch]] = 1;
    for (uint32_t net = n->given; net < n->nets.count; net++)
        c->live[net - n->given] = c->shown[net];
    for (uint32_t place = n->nodes; place-- > 0;) {
        uint32_t node = n->gates[place].net - n->given;
        if (c->live[node])
            for (uint32_t read = n->reads_from[node]; read < n->reads_past[node]; read++)
                if (n->reads[read] >= n->given)
                    c->live[n->reads[read] - n->given] = 1;
    }
}

static int differ(const lanes *a, const lanes *b)
{
    part some = {0};
    for (int k = 0; k < PARTS; k++)
        some |= a->parts[k] ^ b->parts[k];
    uint64_t words[WIDTH / 8], any = 0;
    memcpy(words, &some, sizeof words);
    for (int word = 0; word < WIDTH / 8; word++)
        any |= words[word];
    return any != 0;
}

/* Keeps what a net has, where that isn't what it gets now, and marks its readers. */
static void write_net(cells *c, const netlist *n, uint32_t net, const lanes *now, lanes *changed)
{
    if (!differ(n->rows + net, now))
        return;
    c->right[net] = n->rows[net];
    c->written[c->count++] = net;
    if (c->shown[net])
        for (int k = 0; k < PARTS; k++)
            changed->parts[k] |= n->rows[net].parts[k] ^ now->parts[k];
    n->rows[net] = *now;
    for (uint32_t at = c->from[net]; at < c->from[net + 1]; at++)
        c->marked[c->places[at] / 64] |= (uint64_t)1 << c->places[at] % 64;
}

static void settle_again(cells *c, const netlist *n, uint32_t from, lanes *changed)
{
    for (uint32_t word = from / 64; word <= n->nodes / 64; word++)
        while (c->marked[word]) {
            uint32_t place = word * 64 + __builtin_ctzll(c->marked[word]);
            const gate *g = n->gates + place;
            c->marked[word] &= c->marked[word] - 1;
            lanes kept = n->rows[g->net], now;
            if (g->pins <= 2) {
                settle_two(g, n->rows + g->first, n->rows + g->second, &now);
            } else {
                settle_many(n, g);
                now = n->rows[g->net];
                n->rows[g->net] = kept;
            }
            write_net(c, n, g->net, &now, changed);
        }
}

/* The first of the first points, so many, at which the lanes have a 1, or NONE. */
static uint32_t first_one(const lanes *points, uint32_t many)
{
    uint64_t words[WORDS];
    memcpy(words, points, sizeof words);
    for (uint32_t word = 0; word < WORDS && word * 64 < many; word++)
        if (words[word]) {
            uint32_t p = word * 64 + __builtin_ctzll(words[word]);
            return p < many ? p : NONE;
        }
    return NONE;
}

/* The first of the first points at which a net held at a bit is unheard, or NONE. */
static uint32_t first_unheard(cells *c, const netlist *n, uint32_t net, int held, uint32_t many)
{
    lanes changed, now;
    memset(&changed, 0, sizeof changed);
    memset(&now, held ? 0xff : 0, sizeof now);
    c->count = 0;
    write_net(c, n, net, &now, &changed);
    settle_again(c, n, net < n->given ? 0 : c->place[net - n->given], &changed);
    const lanes *one = n->rows + n->output[n->outputs - 2], *other = n->rows + n->output[n->outputs - 1];
    for (int k = 0; k < PARTS; k++)
        changed.parts[k] &= one->parts[k] ^ other->parts[k];
    for (uint32_t at = 0; at < c->count; at++)
        n->rows[c->written[at]] = c->right[c->written[at]];
    return first_one(&changed, many);
}

/* The first answer of a batch, printed, if it has one. */
static int is_wrong(cells *c, const netlist *n, uint64_t first, uint32_t many)
{
    const lanes *one = n->rows + n->output[n->outputs - 2], *other = n->rows + n->output[n->outputs - 1];
    lanes agree;
    for (int k = 0; k < PARTS; k++)
        agree.parts[k] = ~(one->parts[k] ^ other->parts[k]);
    uint32_t quiet = first_one(&agree, many), bound = quiet == NONE ? many : quiet, cell = NONE, value = 0;
    for (uint32_t net = n->inputs; net < n->nets.count && bound; net++)
        for (uint32_t held = 0; held < 2 && (net < n->given || c->live[net - n->given]); held++) {
            uint32_t p = first_unheard(c, n, net, held, bound);
            if (p != NONE)
                bound = p, cell = net, value = held;
        }
    if (bound == many)
        return 0;
    uint64_t place = first + bound;
    if (cell == NONE)
        printf("no quiet %llu ", (unsigned long long)(place >> n->inputs));
    else
        printf("no alarm %s %u %llu ", n->nets.names[cell], value, (unsigned long long)(place >> n->inputs));
    for (uint32_t input = n->inputs; input-- > 0;)
        putchar('0' + (place >> input & 1));
    putchar('\n');
    return 1;
}

static int walk_cells(cells *c, const netlist *n)
{
    uint64_t count = (n->latches ? n->state_count : 1) << n->inputs;
    for (uint64_t first = 0; first < count; first += POINTS) {
        put_points(n, first);
        if (n->latches)
            put_states(n, first);
        settle(n);
        if (is_wrong(c, n, first, count - first < POINTS ? (uint32_t)(count - first) : POINTS))
            return 0;
    }
    return 1;
}

#ifndef NO_EXACT_MAIN
int main(int words, char **word)
{
    char *text = standard_input();
    int has_rows = !strncmp(text, ".i ", 3), points_alone = words > 1 && !strcmp(word[1], "points");
    const char *mark = has_rows ? "\n.e\n" : "\n.end\n";
    char *end = strstr(text, mark);
    if (!end)
        return 3;
    *end = 0;
    for (unsigned number = 0; number < 16; number++)
        for (int bit = 0; bit < 4; bit++)
            masks[number][bit] = -(uint64_t)(number >> bit & 1);
    static netlist source, behind;
    static machine table;
    static loose rows;
    static cells tried;
    int is_loose = has_rows && has_two_words(text), is_machine = has_rows && !is_loose;
    if (is_loose)
        read_loose(&rows, text);
    else if (is_machine)
        read_machine(&table, text);
    else
        read_netlist(&source, text);
    read_netlist(&behind, end + strlen(mark));
    int right = points_alone || !is_machine || behind.begins == behind.states[table.reset];
    right = right && (points_alone || walk(&source, NULL, is_machine ? &table : NULL, is_loose ? &rows : NULL, &behind));
    if (!right) {
        puts("no");
        return 1;
    }
    make_cells(&tried, &behind);
    if (!walk_cells(&tried, &behind))
        return 1;
    puts("yes");
    return 0;
}
#endif
