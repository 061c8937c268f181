/* What the trials of an exact audit take in three forms, over all points of a network's netlist that is heard at each of them:
   kept     what a trial changes is kept and put back, and nets are compared as they are written, as exact.c has it
   bench    what the trial before changed is settled again together with what this one changes, and all that is seen from outside is
            compared behind it, as the crates have it
   reached  as bench, but of what is seen from outside only what the cell reaches is compared

   trials FORM < TEXT, where TEXT is a network with a netlist behind it, prints the trials, the covers that they settle, the nets that they
   compare, and the seconds of the processor. It ends with status 1 where some cell is unheard. It is started by hand, and built so:
   cc -O3 -march=x86-64-v2 -o trials bench/trials.c */
#define NO_EXACT_MAIN
#include "exact.c"
#include <time.h>

typedef unsigned __int128 places; /* of what is seen from outside, at most 127 nets */
enum { KEPT, BENCH, REACHED };
static int form;
static cells c;
static netlist n;
static uint32_t *seen, seen_count, held_net = NONE;
static lanes *right;
static places *reached;
static unsigned long long trials, settled, compared;

static void mark(uint32_t place)
{
    c.marked[place / 64] |= (uint64_t)1 << place % 64;
}

static void make_seen(void)
{
    seen = room(n.outputs + n.latches, sizeof *seen);
    for (uint32_t o = 0; o + 2 < n.outputs; o++)
        seen[seen_count++] = n.output[o];
    for (uint32_t latch = 0; latch < n.latches; latch++)
        seen[seen_count++] = n.next[latch];
    right = room(seen_count, sizeof *right);
    reached = room(n.nets.count, sizeof *reached);
    for (uint32_t at = 0; at < seen_count; at++)
        reached[seen[at]] |= (places)1 << at;
    for (uint32_t place = n.nodes; place-- > 0;) {
        uint32_t net = n.gates[place].net, node = net - n.given;
        for (uint32_t read = n.reads_from[node]; read < n.reads_past[node]; read++)
            reached[n.reads[read]] |= reached[net];
    }
}

static void write_row(uint32_t net, const lanes *now, lanes *changed)
{
    if (form == KEPT) {
        compared += differ(n.rows + net, now) && c.shown[net];
        write_net(&c, &n, net, now, changed);
    } else if (differ(n.rows + net, now)) {
        n.rows[net] = *now;
        for (uint32_t at = c.from[net]; at < c.from[net + 1]; at++)
            mark(c.places[at]);
    }
}

static void settle_marked(uint32_t from, uint32_t net, const lanes *held, lanes *changed)
{
    for (uint32_t word = from / 64; word <= n.nodes / 64; word++)
        while (c.marked[word]) {
            uint32_t place = word * 64 + __builtin_ctzll(c.marked[word]);
            const gate *g = n.gates + place;
            c.marked[word] &= c.marked[word] - 1;
            settled++;
            lanes before = n.rows[g->net], now;
            if (g->net == net) {
                now = *held;
            } else if (g->pins <= 2) {
                settle_two(g, n.rows + g->first, n.rows + g->second, &now);
            } else {
                settle_many(&n, g);
                now = n.rows[g->net];
                n.rows[g->net] = before;
            }
            write_row(g->net, &now, changed);
        }
}

static void compare(places which, lanes *changed)
{
    for (; which; which &= which - 1) {
        uint32_t at = (uint64_t)which ? __builtin_ctzll((uint64_t)which) : 64 + __builtin_ctzll((uint64_t)(which >> 64));
        compared++;
        for (int k = 0; k < PARTS; k++)
            changed->parts[k] |= right[at].parts[k] ^ n.rows[seen[at]].parts[k];
    }
}

/* A node's net, held at a bit: whether it is unheard at one of the first points. */
static int is_unheard(uint32_t net, int held, uint32_t many)
{
    uint32_t place = c.place[net - n.given], from = place;
    lanes changed, now;
    memset(&changed, 0, sizeof changed);
    memset(&now, held ? 0xff : 0, sizeof now);
    c.count = 0;
    trials++;
    if (form != KEPT && held_net != NONE) {
        uint32_t before = c.place[held_net - n.given];
        mark(before);
        from = before < from ? before : from;
    }
    held_net = net;
    mark(place);
    settle_marked(from, net, &now, &changed);
    if (form != KEPT)
        compare(form == BENCH ? ((places)1 << seen_count) - 1 : reached[net], &changed);
    for (int k = 0; k < PARTS; k++)
        changed.parts[k] &= n.rows[n.output[n.outputs - 2]].parts[k] ^ n.rows[n.output[n.outputs - 1]].parts[k];
    for (uint32_t at = 0; at < c.count; at++)
        n.rows[c.written[at]] = c.right[c.written[at]];
    return first_one(&changed, many) != NONE;
}

static int are_heard(uint32_t many)
{
    held_net = NONE;
    for (uint32_t at = 0; at < seen_count; at++)
        right[at] = n.rows[seen[at]];
    for (uint32_t net = n.given; net < n.nets.count; net++)
        if (c.live[net - n.given] && (is_unheard(net, 0, many) || is_unheard(net, 1, many)))
            return 0;
    return 1;
}

int main(int words, char **word)
{
    static char text[1 << 24];
    text[fread(text, 1, sizeof text - 1, stdin)] = 0;
    char *end = strstr(text, "\n.end\n");
    form = words < 2 ? -1 : !strcmp(word[1], "kept") ? KEPT : !strcmp(word[1], "bench") ? BENCH : !strcmp(word[1], "reached") ? REACHED : -1;
    if (!end || form < 0)
        return 3;
    for (unsigned number = 0; number < 16; number++)
        for (int bit = 0; bit < 4; bit++)
            masks[number][bit] = -(uint64_t)(number >> bit & 1);
    read_netlist(&n, end + strlen("\n.end\n"));
    if (n.latches || n.outputs > 129)
        return 3;
    make_cells(&c, &n);
    make_seen();
    clock_t start = clock();
    for (uint64_t first = 0, count = (uint64_t)1 << n.inputs; first < count; first += POINTS) {
        put_points(&n, first);
        settle(&n);
        if (!are_heard(count - first < POINTS ? (uint32_t)(count - first) : POINTS))
            return 1;
    }
    printf("%s: %llu trials, %llu covers settled, %llu nets compared, %.3f seconds\n", word[1], trials, settled, compared,
           (double)(clock() - start) / CLOCKS_PER_SEC);
    return 0;
}
