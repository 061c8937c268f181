/* Tries the single stuck-at faults of a netlist at every point, apart from `tsc`: it shares no code with it.

       cc -std=c99 -O2 -o evaluate flows/evaluate.c
       evaluate single < NETLIST    how many faults there are, and how many of them are latent, and silent
       evaluate list < NETLIST      each fault in the words of `tsc faults`, and `alarm`, `latent` or `silent`; then the same
       evaluate pairs < NETLIST     the same; then each latent fault with each fault of another cell: how many pairs are silent
       evaluate every < NETLIST     the same, with each fault, latent or not, as the first of a pair
       evaluate exact < NETLIST     what `tsc audit exact` asks of the points: `yes`, `no quiet STATE INPUT` or `no alarm NET V STATE INPUT`

   The netlist is BLIF (.names and .latch) with its #tsc lines. A point is a listed state (#tsc state; one without latches) and an
   input. The faults are both values of the net of each latch and node, and of each of their pins. The fault of a latch's pin acts on
   the state that comes: it is tried as that bit held in the state. A fault is silent where, at some point, an output or a net at a
   latch input is wrong while the rails differ; else it is latent where the rails agree at no point. Two faults of one cell are one
   failing cell and no pair; a pair of two latent faults is counted once for each of them, and so is each pair under `every`.

   `exact` holds the net of each latch and node alone, at both values, and asks nothing of checks: the answer is that of the first point,
   by state and then by input, at which the rails agree without a fault, or else such a net is silent; of these nets the first, latches
   before nodes, and the value at which it is held. Where there is no such point it is `yes`.

   A netlist whose line `#tsc 1 alarm` stands alone is no netlist of `tsc`, but one of flows/duplicated: its last output is one line, and
   a 1 on it is the alarm. It is taken as the first of two rails, the second of which is held at 1. */
#include "netlist.h"

enum { WORDS = 64, POINTS = 64 * WORDS, STEM = -1, LEVELS = 3 };
typedef uint64_t row[WORDS]; /* a bit a point */
typedef struct { int cell, pin, held; } fault;

static fault *faults;
static int fault_count, latch_count, output_count, rail1, rail2, width; /* width: words of a row in use */
static row *store[LEVELS];       /* what is worked out at each level: 0 without a fault, 1 with one, 2 with two */
static uint64_t **now[LEVELS];   /* the row of each net at that level: the level's own, or that of the level below */
static fault active[LEVELS];     /* the fault that came with this level */
static row held[2], used;        /* all 0, all 1; the points that there are */
static list first;               /* the faults that come first in a pair: the latent ones, or every one */
static char *shown, *pair_shown; /* what each fault, and each pair, shows anywhere */

static void prepare(void)
{
    sort_cells();
    for (int c = 0; c < cell_count; c++) {
        latch_count += cells[c].latch;
        for (int at = 0; at < 2 * (cells[c].pins + 1); at++) {
            faults = grown(faults, fault_count, sizeof *faults);
            faults[fault_count++] = (fault){c, at / 2 + STEM, at % 2};
        }
    }
    int alone = code == 'a';
    output_count = outputs.count - 2 + alone;
    if (!code || output_count < 1 || inputs.count > 24 || (latch_count && !state_count))
        stop("no #tsc lines, fewer than three outputs, or more than 24 inputs", "");
    rail1 = outputs.items[output_count], rail2 = alone ? net_count : outputs.items[output_count + 1];
    for (int s = 0; s < state_count; s++)
        if (strlen(states[s]) != (size_t)latch_count)
            stop("a state's word of the wrong length:", states[s]);
    for (int level = 0; level < LEVELS; level++) {
        store[level] = calloc(net_count + 1, sizeof(row));
        now[level] = calloc(net_count + 1, sizeof **now);
        now[level][net_count] = held[1];
    }
    memset(held[1], 255, sizeof held[1]);
    shown = calloc(fault_count + 1, 1);
}

/* ---- settling a block of points */

/* the row that a fault of this level, or of one below, holds a stem or pin at; NULL where none does */
static uint64_t *held_at(int level, int c, int pin)
{
    for (; level > 0; level--)
        if (active[level].cell == c && (active[level].pin == pin || cells[c].latch))
            return held[active[level].held];
    return NULL;
}

static void compute(const cell *c, uint64_t **pins, uint64_t *into)
{
    for (int w = 0; w < width; w++) {
        uint64_t any = 0;
        for (int r = 0; r < c->rows; r++) {
            uint64_t all = ~UINT64_C(0);
            for (int pin = 0; pin < c->pins; pin++)
                if (c->cubes[r][pin] != '-')
                    all &= c->cubes[r][pin] == '1' ? pins[pin][w] : ~pins[pin][w];
            any |= all;
        }
        into[w] = c->on ? any : ~any;
    }
}

/* settles the level; above level 0 only what its fault changes is worked out */
static void settle(int level)
{
    uint64_t *pins[PINS], **rows = now[level], **below = level ? now[level - 1] : NULL;
    if (level)
        memcpy(rows, below, net_count * sizeof *rows);
    for (int place = 0; place < cell_count; place++) {
        int c = order[place], changed = !level || active[level].cell == c, net = cells[c].net;
        uint64_t *stem = held_at(level, c, STEM);
        if (stem)
            rows[net] = stem;
        for (int pin = 0; pin < cells[c].pins && !stem; pin++) {
            uint64_t *at = held_at(level, c, pin);
            pins[pin] = at ? at : rows[cells[c].reads[pin]];
            changed |= level && !at && pins[pin] != below[cells[c].reads[pin]];
        }
        if (stem || cells[c].latch || !changed)
            continue;
        compute(&cells[c], pins, store[level][net]);
        if (!level || memcmp(store[level][net], below[net], width * sizeof(uint64_t)))
            rows[net] = store[level][net];
    }
}

/* puts the points from this one on at the inputs and latches, and settles them without a fault */
static void put_points(long from, long points)
{
    width = points - from < POINTS ? (points - from + 63) / 64 : WORDS;
    memset(used, 0, sizeof used);
    for (int net = 0; net < net_count; net++)
        memset(now[0][net] = store[0][net], 0, sizeof(row));
    for (long p = 0; p < POINTS && from + p < points; p++) {
        uint64_t bit = UINT64_C(1) << p % 64;
        used[p / 64] |= bit;
        for (int i = 0; i < inputs.count; i++)
            if ((from + p) >> (inputs.count - 1 - i) & 1)
                store[0][inputs.items[i]][p / 64] |= bit;
        for (int l = 0; l < latch_count; l++)
            if (states[(from + p) >> inputs.count][l] == '1')
                store[0][cells[l].net][p / 64] |= bit;
    }
    settle(0);
}

static int ones(list l, int p)
{
    int sum = 0;
    for (int i = 0; i < l.count; i++)
        sum += now[0][l.items[i]][p / 64] >> p % 64 & 1;
    return sum;
}

/* whether the word at the point is a codeword and the rails differ, without a fault */
static int is_quiet(int p)
{
    list source = {outputs.items, output_count}, rails = {(int[]){rail1, rail2}, 2};
    int binary = 0, next = 0, weight = 0, quiet = ones(rails, p) == 1;
    for (int g = 0; g < group_count; g++)
        quiet &= ones(groups[g], p) % 2;
    for (int i = 0; i < checks.count; i++)
        binary = 2 * binary + ones((list){&checks.items[i], 1}, p);
    quiet &= code != 'b' || binary == output_count - ones(source, p);
    quiet &= code != 'm' || ones(source, p) + ones(checks, p) == output_count;
    for (int l = 0; l < latch_count; l++) {
        next += ones((list){cells[l].reads, 1}, p);
        weight += states[0][l] == '1';
    }
    return quiet && next == weight;
}

/* the points of the block at which the rails agree at this level */
static void put_agreeing(int level, row into)
{
    for (int w = 0; w < width; w++)
        into[w] = ~(now[level][rail1][w] ^ now[level][rail2][w]) & used[w];
}

/* those at which with the fault something is wrong and the rails differ */
static void put_silent(int level, int f, row into)
{
    active[level] = faults[f];
    settle(level);
    uint64_t **rows = now[level];
    memset(into, 0, sizeof(row));
    for (int i = 0; i < output_count + latch_count; i++) {
        int net = i < output_count ? outputs.items[i] : cells[i - output_count].reads[0];
        for (int w = 0; w < width && rows[net] != now[0][net]; w++)
            into[w] |= (rows[net][w] ^ now[0][net][w]) & (rows[rail1][w] ^ rows[rail2][w]) & used[w];
    }
}

/* the first of the points; POINTS where there is none */
static int first_point(const row points)
{
    int p = 0;
    while (p < 64 * width && !(points[p / 64] >> p % 64 & 1))
        p += points[p / 64] >> p % 64 ? 1 : 64 - p % 64;
    return p < 64 * width ? p : POINTS;
}

/* what the fault shows at this level somewhere in the block: 1 the rails agree, 2 something is wrong where they differ */
static int with_fault(int level, int f)
{
    row silent, agree;
    put_silent(level, f, silent);
    put_agreeing(level, agree);
    return (first_point(agree) < POINTS ? 1 : 0) | (first_point(silent) < POINTS ? 2 : 0);
}

/* ---- the answers */

static void each_block(long points, void (*work)(void))
{
    for (long from = 0; from < points; from += POINTS) {
        put_points(from, points);
        for (int p = 0; p < POINTS && from + p < points; p++)
            if (!is_quiet(p))
                stop("without a fault the rails agree, or the word is no codeword, at some point", "");
        work();
    }
}

static void singles(void)
{
    for (int f = 0; f < fault_count; f++)
        shown[f] |= with_fault(1, f);
}

static void pairs(void)
{
    for (int i = 0; i < first.count; i++) {
        with_fault(1, first.items[i]);
        for (int f = 0; f < fault_count; f++)
            if (faults[f].cell != active[1].cell && pair_shown[(size_t)i * fault_count + f] < 2)
                pair_shown[(size_t)i * fault_count + f] |= with_fault(2, f);
    }
}

/* the answer of `exact` in the block that begins at this point, if there is one */
static int is_answered(long from)
{
    row agree, silent;
    put_agreeing(0, agree);
    int quiet = first_point(agree), least = POINTS, which = 0;
    for (int f = 0; f < fault_count; f++) {
        if (faults[f].pin != STEM)
            continue;
        put_silent(1, f, silent);
        if (first_point(silent) < least)
            least = first_point(silent), which = f;
    }
    long point = from + (quiet <= least ? quiet : least);
    if (quiet == POINTS && least == POINTS)
        return 0;
    if (quiet <= least)
        printf("no quiet %ld ", point >> inputs.count);
    else
        printf("no alarm %s %d %ld ", names[cells[faults[which].cell].net], faults[which].held, point >> inputs.count);
    for (int i = 0; i < inputs.count; i++)
        printf("%ld", point >> (inputs.count - 1 - i) & 1);
    puts(inputs.count ? "" : ".");
    return 1;
}

static void exact(long points)
{
    for (long from = 0; from < points; from += POINTS) {
        put_points(from, points);
        if (is_answered(from))
            return;
    }
    puts("yes");
}

static void list_fault(fault f, const char *what)
{
    if (f.pin == STEM)
        printf("stem %s %d %s\n", names[cells[f.cell].net], f.held, what);
    else
        printf("pin %s %d %d %s\n", names[cells[f.cell].net], f.pin, f.held, what);
}

int main(int argc, char **argv)
{
    const char *mode = argc == 2 ? argv[1] : "", *what[] = {"latent", "alarm", "silent", "silent"};
    if (strcmp(mode, "single") && strcmp(mode, "list") && strcmp(mode, "pairs") && strcmp(mode, "every") && strcmp(mode, "exact"))
        stop("single, list, pairs, every or exact, and a netlist on standard input", "");
    read_netlist();
    prepare();
    long points = (state_count ? state_count : 1L) << inputs.count, tried = 0, silent = 0, quiet = 0, unseen = 0;
    if (!strcmp(mode, "exact")) {
        exact(points);
        return 0;
    }
    each_block(points, singles);
    for (int f = 0; f < fault_count; f++) {
        if (!shown[f] || *mode == 'e')
            push(&first, f);
        unseen += !shown[f];
        silent += shown[f] > 1;
        if (*mode == 'l')
            list_fault(faults[f], what[(int)shown[f]]);
    }
    printf("points %ld faults %d latent %ld silent %ld", points, fault_count, unseen, silent);
    if (*mode == 'p' || *mode == 'e') {
        pair_shown = calloc((size_t)first.count * fault_count + 1, 1);
        each_block(points, pairs);
        for (size_t i = 0; i < (size_t)first.count * fault_count; i++) {
            tried += faults[i % fault_count].cell != faults[first.items[i / fault_count]].cell;
            quiet += pair_shown[i] > 1;
        }
        printf(" pairs %ld silent %ld", tried, quiet);
    }
    puts("");
}
