/* Injects faults into a netlist with registers, and says which are silent, apart from `tsc`: it shares no code with it.

       cc -std=c99 -O2 -o inject flows/inject.c
       inject NETLIST [-t STEPS] [-n COUNT] [-f FLIPS] [-s SEED] [-l]

   The netlist is BLIF (.names and .latch) whose last two outputs are the rails, with or without its #tsc lines. A run begins at the init
   bits. A step of STEPS is a line: 0, or 1 where a new run begins, then the inputs, in the order of .inputs, and, where they are known from
   another simulator, the outputs, where an x isn't compared. Without -t there are COUNT steps (2,000), drawn from the SEED, in one run.

   The faults are each net that is no input held at 0, and held at 1, in all steps, and FLIPS drawn ones (1,000), each of which inverts such a
   net in one step; one fault a lane, 63 faults and the netlist without one side by side. In a run a fault is silent where an output is wrong
   in a step, the rails differ in it, and they agreed in no step before. It is late where that is so of an output or a check, which the
   plan names. An output is wrong where it isn't as STEPS says, or, where that has none, as without a fault; a check as without a fault.

   It prints a line, or with -l a line for each fault before it (stem NET V, or flip NET STEP; and silent, late, alarm, unseen or asleep):
       faults N silent N late N alarmed N unseen N asleep N, runs N steps N false N wrong N word N
   alarmed: not silent, and the rails agree somewhere. unseen: they don't, and nothing is wrong. asleep: of the unseen those under which a
   register held a wrong bit. false: steps in which the rails agree without a fault; wrong: in which an output isn't as STEPS says; word: in
   which a group of the plan, or what is watched with its check, isn't odd. Status 0; 1 where one of silent, late, false, wrong and word
   isn't 0; 2 for words and files. */
#define _POSIX_C_SOURCE 200809L
#define TOOL "inject"
#include "netlist.h"

enum { LANES = 64, WORDS = 8 };
typedef struct { uint64_t w[WORDS]; } row; /* WORDS times 64 lanes; lane 0 of each word has no fault */
typedef struct { int net, held, step; } fault; /* held: 0 or 1, or 2 for a flip in the step */

static fault *faults;
static int fault_count, latch_count, output_count, steps, width, has_outputs, is_listing;
static char **lines;          /* the steps */
static row *now, *state;      /* of each net in this step; of each latch */
static row *down, *up;        /* of each net the lanes that hold it at 0, and at 1 */
static int *flip_at;          /* the flips of this block by lane: the step, or -1 */
static int *flip_net;
static char *is_flipped;      /* of each net whether a flip of this block is of it */
static uint64_t seed = 1;

static uint64_t drawn(void)
{
    seed ^= seed << 13, seed ^= seed >> 7, seed ^= seed << 17;
    return seed;
}

static void read_steps(const char *path)
{
    FILE *file = fopen(path, "r");
    char *line = NULL, *word;
    size_t room = 0;
    if (!file)
        stop("no file", path);
    while (getline(&line, &room, file) > 0) {
        char *inputs_word = strtok(line, " \t\r\n"), *outputs_word = inputs_word ? strtok(NULL, " \t\r\n") : NULL;
        if (!inputs_word)
            continue;
        if (strlen(inputs_word) != (size_t)width + 1 || strspn(inputs_word, "01") != (size_t)width + 1)
            stop("a step isn't 0 or 1 and a bit for each input:", inputs_word);
        if (outputs_word && (strlen(outputs_word) != (size_t)output_count || strspn(outputs_word, "01x") != (size_t)output_count))
            stop("a step's outputs aren't a 0, 1 or x each:", outputs_word);
        if (steps && has_outputs != !!outputs_word)
            stop("outputs stand in some steps alone:", inputs_word);
        has_outputs = !!outputs_word;
        word = malloc(width + output_count + 2);
        strcpy(word, inputs_word);
        strcat(word, outputs_word ? outputs_word : "");
        lines = grown(lines, steps, sizeof *lines);
        lines[steps++] = word;
    }
    fclose(file);
    free(line);
    if (!steps)
        stop("no steps in", path);
}

/* each input keeps its bit, seldom or often, by turns */
static void draw_steps(int count)
{
    char *before = calloc(width + 2, 1);
    int *often = calloc(width + 1, sizeof *often);
    memset(before, '0', width + 1);
    for (; steps < count; steps++) {
        for (int i = 0; i < width; i++) {
            if (steps % 60 == 0)
                often[i] = (int[]){2, 10, 50, 50}[drawn() >> 20 & 3];
            if ((int)(drawn() >> 20 & 1023) % 100 < often[i])
                before[i + 1] ^= 1;
        }
        lines = grown(lines, steps, sizeof *lines);
        lines[steps] = strdup(before);
        lines[steps][0] = steps ? '0' : '1';
    }
    free(before);
    free(often);
}

static void list_faults(int flips)
{
    for (int c = 0; c < cell_count; c++)
        for (int held = 0; held < 2; held++) {
            faults = grown(faults, fault_count, sizeof *faults);
            faults[fault_count++] = (fault){cells[c].net, held, 0};
        }
    for (int k = 0; k < flips && cell_count; k++) {
        faults = grown(faults, fault_count, sizeof *faults);
        faults[fault_count++] = (fault){cells[(drawn() >> 16) % cell_count].net, 2, (int)((drawn() >> 16) % steps)};
    }
}

static row compute(const cell *c)
{
    row any = {{0}};
    for (int r = 0; r < c->rows; r++) {
        row all;
        memset(&all, 255, sizeof all);
        for (int pin = 0; pin < c->pins; pin++) {
            const row *it = &now[c->reads[pin]];
            if (c->cubes[r][pin] == '1')
                for (int w = 0; w < WORDS; w++)
                    all.w[w] &= it->w[w];
            else if (c->cubes[r][pin] == '0')
                for (int w = 0; w < WORDS; w++)
                    all.w[w] &= ~it->w[w];
        }
        for (int w = 0; w < WORDS; w++)
            any.w[w] |= all.w[w];
    }
    for (int w = 0; w < WORDS && !c->on; w++)
        any.w[w] = ~any.w[w];
    return any;
}

/* the lanes whose flip is of this net in this step */
static row flipped(int net, int step)
{
    row lanes = {{0}};
    for (int lane = 0; lane < LANES * WORDS; lane++)
        if (flip_at[lane] == step && flip_net[lane] == net)
            lanes.w[lane / LANES] |= UINT64_C(1) << lane % LANES;
    return lanes;
}

static void settle(int step)
{
    for (int place = 0; place < cell_count; place++) {
        int c = order[place], net = cells[c].net;
        row bits = cells[c].latch ? state[c] : compute(&cells[c]);
        for (int w = 0; w < WORDS; w++)
            bits.w[w] = (bits.w[w] & ~down[net].w[w]) | up[net].w[w];
        if (is_flipped[net]) {
            row lanes = flipped(net, step);
            for (int w = 0; w < WORDS; w++)
                bits.w[w] ^= lanes.w[w];
        }
        now[net] = bits;
    }
}

/* adds the lanes in which the net isn't as in lane 0 of its word, or, with a bit, as this */
static void add_wrong(row *wrong, int net, int bit)
{
    for (int w = 0; w < WORDS; w++) {
        uint64_t right = bit >= 0 ? -(uint64_t)bit : -(now[net].w[w] & 1);
        wrong->w[w] |= now[net].w[w] ^ right;
    }
}

static int is_odd(list l)
{
    int sum = 0;
    for (int i = 0; i < l.count; i++)
        sum ^= now[l.items[i]].w[0] & 1;
    return sum;
}

static long runs, falses, wrongs, words;

/* what is counted without a fault */
static void count_plain(int step, row agree, row wrong)
{
    runs += lines[step][0] == '1' || !step;
    falses += agree.w[0] & 1;
    wrongs += has_outputs && (wrong.w[0] & 1);
    int is_word = watched.count == 0 || is_odd(watched);
    for (int g = 0; g < group_count; g++)
        is_word &= is_odd(groups[g]);
    words += !is_word;
}

typedef struct { row silent, late, alarmed, asleep; } shown;

/* the steps with the faults of this block */
static shown run_block(int is_first)
{
    shown all = {{{0}}, {{0}}, {{0}}, {{0}}};
    row alarmed = {{0}};
    int rail1 = outputs.items[output_count], rail2 = outputs.items[output_count + 1];
    for (int step = 0; step < steps; step++) {
        if (!step || lines[step][0] == '1') {
            memset(&alarmed, 0, sizeof alarmed);
            for (int l = 0; l < latch_count; l++)
                memset(&state[l], cells[l].first ? 255 : 0, sizeof(row));
        }
        for (int i = 0; i < width; i++)
            memset(&now[inputs.items[i]], lines[step][i + 1] == '1' ? 255 : 0, sizeof(row));
        settle(step);
        row wrong = {{0}}, checked, held = {{0}}, agree;
        for (int o = 0; o < output_count; o++)
            if (!has_outputs || lines[step][width + 1 + o] != 'x')
                add_wrong(&wrong, outputs.items[o], has_outputs ? lines[step][width + 1 + o] == '1' : -1);
        checked = wrong;
        for (int g = 0; g < group_count; g++)
            add_wrong(&checked, groups[g].items[groups[g].count - 1], -1);
        for (int l = 0; l < latch_count; l++)
            add_wrong(&held, cells[l].net, -1);
        for (int w = 0; w < WORDS; w++) {
            agree.w[w] = ~(now[rail1].w[w] ^ now[rail2].w[w]);
            alarmed.w[w] |= agree.w[w];
            all.alarmed.w[w] |= agree.w[w];
            all.silent.w[w] |= wrong.w[w] & ~alarmed.w[w];
            all.late.w[w] |= checked.w[w] & ~alarmed.w[w];
            all.asleep.w[w] |= held.w[w];
        }
        if (is_first)
            count_plain(step, agree, wrong);
        for (int l = 0; l < latch_count; l++)
            state[l] = now[cells[l].reads[0]];
    }
    return all;
}

static int has(row lanes, int lane) { return lanes.w[lane / LANES] >> lane % LANES & 1; }

static void list_fault(fault f, const char *what)
{
    if (f.held < 2)
        printf("stem %s %d %s\n", names[f.net], f.held, what);
    else
        printf("flip %s %d %s\n", names[f.net], f.step, what);
}

static int number(const char *word, const char *option)
{
    char *end;
    long value = strtol(word, &end, 10);
    if (!*word || *end || value < 0 || value > 100000000)
        stop("no number after", option);
    return (int)value;
}

static const char *path, *given; /* the netlist, the steps */
static int count = 2000, flips = 1000;

static void read_words(int argc, char **argv)
{
    const char *words = "the words are NETLIST [-t STEPS] [-n COUNT] [-f FLIPS] [-s SEED] [-l]";
    for (int i = 1; i < argc; i++) {
        const char *word = argv[i], *value = i + 1 < argc ? argv[i + 1] : NULL;
        if (word[0] != '-' && !path)
            path = word;
        else if (!strcmp(word, "-l"))
            is_listing = 1;
        else if (word[0] != '-' || !word[1] || !strchr("tnfs", word[1]) || word[2] || !value)
            stop(words, word);
        else if (i++, word[1] == 't')
            given = value;
        else if (word[1] == 'n')
            count = number(value, "-n");
        else if (word[1] == 'f')
            flips = number(value, "-f");
        else
            seed = number(value, "-s") * UINT64_C(2654435761) + UINT64_C(88172645463325252);
    }
    if (!path || !count)
        stop(words, "");
}

static void prepare(void)
{
    if (!freopen(path, "r", stdin))
        stop("no file", path);
    read_netlist();
    sort_cells();
    while (latch_count < cell_count && cells[latch_count].latch)
        latch_count++;
    width = inputs.count, output_count = outputs.count - 2;
    if (output_count < 1)
        stop("fewer than three outputs, of which the last two are the rails", "");
    if (given)
        read_steps(given);
    else
        draw_steps(count);
    list_faults(flips);
    now = calloc(net_count + 1, sizeof(row)), state = calloc(latch_count + 1, sizeof(row));
    down = calloc(net_count + 1, sizeof(row)), up = calloc(net_count + 1, sizeof(row));
    flip_at = malloc(LANES * WORDS * sizeof(int)), flip_net = calloc(LANES * WORDS, sizeof(int));
    is_flipped = calloc(net_count + 1, 1);
}

/* the lane of the fault at this place of a block: lane 0 of each word has none */
static int lane_of(int place) { return place / (LANES - 1) * LANES + place % (LANES - 1) + 1; }

/* puts the faults from this one on into the lanes: how many there are */
static int put_block(int from)
{
    int place = 0;
    memset(down, 0, (net_count + 1) * sizeof(row)), memset(up, 0, (net_count + 1) * sizeof(row));
    memset(is_flipped, 0, net_count + 1), memset(flip_at, 255, LANES * WORDS * sizeof(int));
    for (; place < (LANES - 1) * WORDS && from + place < fault_count; place++) {
        fault f = faults[from + place];
        int lane = lane_of(place);
        if (f.held == 2)
            flip_at[lane] = f.step, flip_net[lane] = f.net, is_flipped[f.net] = 1;
        else
            (f.held ? up : down)[f.net].w[lane / LANES] |= UINT64_C(1) << lane % LANES;
    }
    return place;
}

int main(int argc, char **argv)
{
    long silent = 0, late = 0, alarmed = 0, unseen = 0, asleep = 0;
    read_words(argc, argv);
    prepare();
    for (int from = 0; from < fault_count || !from; from += (LANES - 1) * WORDS) {
        int block = put_block(from);
        shown all = run_block(!from);
        for (int place = 0; place < block; place++) {
            int lane = lane_of(place), is_silent = has(all.silent, lane), is_late = has(all.late, lane);
            int is_alarmed = !is_silent && has(all.alarmed, lane), is_unseen = !is_silent && !is_alarmed;
            int is_asleep = is_unseen && has(all.asleep, lane);
            silent += is_silent, late += is_late, alarmed += is_alarmed, unseen += is_unseen, asleep += is_asleep;
            if (is_listing)
                list_fault(faults[from + place], is_silent ? "silent" : is_late ? "late" : is_alarmed ? "alarm" : is_asleep ? "asleep" : "unseen");
        }
    }
    printf("faults %d silent %ld late %ld alarmed %ld unseen %ld asleep %ld, runs %ld steps %d false %ld wrong %ld word %ld\n", fault_count,
           silent, late, alarmed, unseen, asleep, runs, steps, falses, wrongs, words);
    return silent || late || falses || wrongs || words;
}
