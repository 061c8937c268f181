/* Makes of a refutation in DRAT one in LRAT, for flows/prove, which compiles it.

   elaborate FORMULA REFUTATION > LRAT

   FORMULA is DIMACS, REFUTATION is DRAT as text. Forward it adds the lemmas one after another and propagates units, until a clause is
   false. Backward it takes them away again, and looks of each that is wanted for clauses from which it follows by unit propagation, first
   among those that are wanted already. What is wanted it then writes, with these clauses as hints, and a deletion after the last use of
   each clause. A literal that is known without an assumption becomes a lemma of one literal, so that no hints repeat where it comes from.
   Deletions of clauses that gave such a literal are passed over. A lemma that doesn't follow so (a RAT step) ends it with status 1.

   Nothing of it is trusted: what it writes has to be checked. */
#define PROGRAM "elaborate"
#include "clauses.h"

// ---- clauses: those of the formula, then the lemmas; a literal is 2 * variable, and one more where it is negated

static List literals, starts, hashes, next_alike, steps; // a step is a clause that is added, or ~clause for one that is deleted
static int formula, *first_alike;                        // `first_alike` and `next_alike` chain clauses of the same hash
static unsigned char *wanted;                            // by the refutation
static unsigned *stamp, now;                             // of literals, to compare clauses
enum { SLOTS = 1 << 20, PASSED = INT_MIN };                // PASSED: a deletion that is passed over

static int *of(int clause) { return literals.items + starts.items[clause]; }
static int size_of(int clause) { return starts.items[clause + 1] - starts.items[clause]; }
static int negated(int literal) { return literal ^ 1; }
static int literal_of(int number) { return number < 0 ? -2 * number + 1 : 2 * number; }
static int number_of(int literal) { return literal & 1 ? -(literal >> 1) : literal >> 1; }

static unsigned hash_from(size_t start) {
    unsigned sum = 0, product = 1, all = 0;
    for (size_t k = start; k < literals.count; k++)
        sum += literals.items[k], product *= 2 * literals.items[k] + 1, all ^= literals.items[k];
    return (1023 * sum + product) ^ (31 * all);
}

// the end of a clause whose literals were just pushed
static int close_clause(void) {
    int clause = starts.count - 1;
    unsigned hash = hash_from(starts.items[clause]);
    push(&starts, literals.count);
    push(&hashes, hash);
    push(&next_alike, first_alike[hash % SLOTS]);
    first_alike[hash % SLOTS] = clause;
    return clause;
}

// the clause with the literals that were just pushed, which are dropped: it is taken out of its chain; -1 where there is none
static int take_alike(void) {
    size_t start = starts.items[starts.count - 1], count = literals.count - start;
    unsigned hash = hash_from(start);
    now++;
    for (size_t k = start; k < literals.count; k++) stamp[literals.items[k]] = now;
    literals.count = start;
    for (int *at = &first_alike[hash % SLOTS]; *at >= 0; at = &next_alike.items[*at]) {
        int clause = *at, k = 0, size = size_of(clause);
        if ((unsigned)hashes.items[clause] != hash || (size_t)size != count) continue;
        while (k < size && stamp[of(clause)[k]] == now) k++;
        if (k == size) { *at = next_alike.items[clause]; return clause; }
    }
    return -1;
}

static void read_all(const char *formula_path, const char *path) {
    char *at = clauses_of(formula_path);
    size_t length;
    stamp = calloc(2 * variables + 2, sizeof *stamp);
    first_alike = malloc(SLOTS * sizeof *first_alike);
    memset(first_alike, -1, SLOTS * sizeof *first_alike);
    push(&starts, 0);
    for (int part = 0; part < 2; part++) {
        if (part) at = text_of(path, &length), formula = starts.count - 1;
        while (is_more(&at)) {
            int deletes = *at == 'd';
            at += deletes;
            for (int number; (number = literal_at(&at)) != 0;) push(&literals, literal_of(number));
            int clause = deletes ? take_alike() : close_clause();
            if (part && clause >= 0) push(&steps, deletes ? ~clause : clause);
        }
    }
}

// ---- values, and clauses by the two literals that are watched

typedef struct { int clause, other; } Watch;
typedef struct { Watch *items; int count, room; } Watches;

static Watches *watched;       // of each literal the clauses that are looked at when it becomes false
static signed char *value;     // of literals: 1 true, -1 false
static int *reason, *position; // of variables: the clause that gave the value, or -1; and where it stands on the trail
static int *trail, known, seen_wanted, seen_others;

static void watch(int literal, int clause, int other) {
    Watches *list = &watched[literal];
    if (list->count == list->room) {
        list->room = list->room ? 2 * list->room : 4;
        list->items = realloc(list->items, list->room * sizeof(Watch));
        if (!list->items) stop("no memory", "");
    }
    list->items[list->count++] = (Watch){clause, other};
}

static void unwatch(int literal, int clause) {
    Watches *list = &watched[literal];
    int k = list->count - 1;
    while (list->items[k].clause != clause) k--;
    list->items[k] = list->items[--list->count];
}

static void assign(int literal, int clause) {
    value[literal] = 1, value[negated(literal)] = -1;
    reason[literal >> 1] = clause;
    position[literal >> 1] = known;
    trail[known++] = literal;
}

static void forget(int count) {
    while (known > count) {
        int literal = trail[--known];
        value[literal] = value[negated(literal)] = 0;
    }
    seen_wanted = seen_others = known;
}

// how late a literal became false; what isn't false comes last
static int lateness(int literal) { return value[literal] < 0 ? position[literal >> 1] : variables + 1; }

// Watches the clause by the two literals that became false last. Returns 0 where all are false, 1 where one isn't, 2 for more.
static int attach(int clause) {
    int *them = of(clause), size = size_of(clause);
    for (int place = 0; place < 2 && place < size; place++) {
        int best = place;
        for (int k = place + 1; k < size; k++)
            if (lateness(them[k]) > lateness(them[best])) best = k;
        int literal = them[best];
        them[best] = them[place], them[place] = literal;
    }
    if (size > 1) watch(them[0], clause, them[1]), watch(them[1], clause, them[0]);
    return size == 0 || value[them[0]] < 0 ? 0 : size == 1 || value[them[1]] < 0 ? 1 : 2;
}

static void detach(int clause) {
    if (size_of(clause) > 1) unwatch(of(clause)[0], clause), unwatch(of(clause)[1], clause);
}

// Looks at the clauses that watch the negation of a literal that is true: all (-1), those that are wanted (1), or the others (0).
// Returns a clause that is false, or -1.
static int visit(int literal, int kind) {
    int lost = negated(literal), kept = 0, k = 0, conflict = -1;
    Watches *list = &watched[lost];
    for (; k < list->count && conflict < 0; k++) {
        Watch it = list->items[k];
        if (value[it.other] > 0 || (kind >= 0 && wanted[it.clause] != kind)) { list->items[kept++] = it; continue; }
        int *them = of(it.clause), size = size_of(it.clause), at = 2;
        if (them[0] == lost) them[0] = them[1], them[1] = lost;
        it.other = them[0];
        if (value[them[0]] <= 0) {
            while (at < size && value[them[at]] < 0) at++;
            if (at < size) {
                them[1] = them[at], them[at] = lost;
                watch(them[1], it.clause, them[0]);
                continue;
            }
            if (value[them[0]] < 0) conflict = it.clause;
            else assign(them[0], it.clause);
        }
        list->items[kept++] = it;
    }
    while (k < list->count) list->items[kept++] = list->items[k++];
    list->count = kept;
    return conflict;
}

static int propagate(int wanted_first) {
    for (int conflict = -1;;) {
        if (wanted_first && seen_wanted < known) conflict = visit(trail[seen_wanted++], 1);
        else if (seen_others < known) conflict = visit(trail[seen_others++], wanted_first ? 0 : -1);
        else return -1;
        if (conflict >= 0) return conflict;
    }
}

// ---- the two passes

static List all_hints, first_hint, hint_count; // of lemmas; a hint is a clause, or ~variable for the lemma of one literal
static unsigned char *wanted_unit, *marked;      // of variables
static int *known_before;                        // of each step how many literals were known before it

// The clause that says a literal which is known without an assumption: it is wanted now.
static int unit_of(int variable) {
    int clause = reason[variable];
    if (size_of(clause) == 1) { wanted[clause] = 1; return clause; }
    wanted_unit[variable] = 1;
    return ~variable;
}

// Says why the clause is false: pushes hints, of which the first say what is known without an assumption (`base` literals of the trail).
static void explain(int conflict, int base) {
    static List used, marks;
    used.count = marks.count = 0;
    wanted[conflict] = 1;
    int clause = conflict, at = known;
    for (;;) {
        for (int k = 0; k < size_of(clause); k++) {
            int variable = of(clause)[k] >> 1;
            if (marked[variable]) continue;
            marked[variable] = 1;
            push(&marks, variable);
            if (position[variable] < base) push(&all_hints, unit_of(variable));
        }
        do at--; while (at >= base && !(marked[trail[at] >> 1] && reason[trail[at] >> 1] >= 0));
        if (at < base) break;
        clause = reason[trail[at] >> 1];
        wanted[clause] = 1;
        push(&used, clause);
    }
    while (used.count) push(&all_hints, used.items[--used.count]);
    push(&all_hints, conflict);
    while (marks.count) marked[marks.items[--marks.count]] = 0;
}

// Looks for the hints of a lemma.
static void check(int lemma) {
    int base = known, size = size_of(lemma), k = 0;
    while (k < size && value[of(lemma)[k]] <= 0) k++;
    if (k < size) { push(&all_hints, unit_of(of(lemma)[k] >> 1)); return; }
    for (k = 0; k < size; k++)
        if (!value[of(lemma)[k]]) assign(negated(of(lemma)[k]), -1);
    int conflict = propagate(1);
    if (conflict < 0) { fprintf(stderr, "elaborate: lemma %d doesn't follow by unit propagation\n", lemma - formula + 1); exit(1); }
    explain(conflict, base);
    forget(base);
}

// Adds a clause. Returns a clause that is false, or -1.
static int add(int clause) {
    int open = attach(clause);
    if (open == 0) return clause;
    if (open == 1 && !value[of(clause)[0]]) assign(of(clause)[0], clause);
    return propagate(0);
}

// Adds until a clause is false. Returns it; `last` is the step at which that was, or -1.
static int forward(int *last) {
    for (int clause = 0; clause < formula; clause++)
        if (size_of(clause) > 1) attach(clause);
    *last = -1;
    for (int clause = 0; clause < formula; clause++) {
        if (size_of(clause) > 1 || (size_of(clause) == 1 && value[of(clause)[0]] > 0)) continue;
        if (size_of(clause) == 0 || value[of(clause)[0]] < 0) return clause;
        assign(of(clause)[0], clause);
    }
    int conflict = propagate(0);
    for (size_t k = 0; k < steps.count && conflict < 0; k++) {
        known_before[k] = known;
        *last = k;
        int step = steps.items[k], clause = step < 0 ? ~step : step;
        if (step >= 0) { conflict = add(clause); continue; }
        int gave = size_of(clause) == 1;
        for (int place = 0; place < 2 && place < size_of(clause); place++)
            gave |= value[of(clause)[place]] > 0 && reason[of(clause)[place] >> 1] == clause;
        if (gave) steps.items[k] = PASSED;
        else detach(clause);
    }
    return conflict;
}

// Marks the reasons of the wanted lemmas of one literal, the last first, down to this many.
static void units_from(int count) {
    for (int k = known - 1; k >= count; k--) {
        int variable = trail[k] >> 1, clause = reason[variable];
        if (!wanted_unit[variable]) continue;
        wanted[clause] = 1;
        for (int at = 0; at < size_of(clause); at++)
            if (of(clause)[at] >> 1 != variable) unit_of(of(clause)[at] >> 1);
    }
}

static void backward(int last, int conflict, int *hints_at) {
    seen_wanted = seen_others = known;
    hints_at[0] = all_hints.count; // of the empty clause
    explain(conflict, known);
    hints_at[1] = all_hints.count;
    for (int k = last; k >= 0; k--) {
        int step = steps.items[k];
        if (step == PASSED) continue;
        if (step < 0) { attach(~step); continue; }
        units_from(known_before[k]);
        forget(known_before[k]);
        detach(step);
        first_hint.items[step - formula] = all_hints.count;
        if (wanted[step]) check(step);
        hint_count.items[step - formula] = all_hints.count - first_hint.items[step - formula];
    }
    units_from(0);
}

// ---- what is written: lines, each a lemma with its hints, and after it what is used no more

typedef struct { int what, hint, count; } Line; // a clause, or ~variable, or -formula-variables for the empty clause

static Line *lines;
static int line_count, *number, *last_use, *next_dead, *first_dead, lemmas_from;
static int *first_reason; // of variables: the clause that gave the value that is known without an assumption

static int index_of(int what) { return what >= 0 ? what : lemmas_from + ~what; }

static void use(int what, int line) {
    int at = index_of(what);
    if (last_use[at] >= 0) return; // lines are looked at from the last
    last_use[at] = line;
    next_dead[at] = first_dead[line];
    first_dead[line] = at;
}

static void unit_hints(int variable) {
    int clause = first_reason[variable];
    for (int k = 0; k < size_of(clause); k++) {
        int other = of(clause)[k] >> 1;
        if (other != variable) push(&all_hints, size_of(first_reason[other]) == 1 ? first_reason[other] : ~other);
    }
    push(&all_hints, clause);
}

static void add_units(const int *order, int from, int to) {
    for (int k = from; k < to; k++) {
        int variable = order[k] >> 1, start = all_hints.count;
        if (!wanted_unit[variable]) continue;
        unit_hints(variable);
        lines[line_count++] = (Line){~variable, start, all_hints.count - start};
    }
}

static void write_lines(const int *order, int count, int last, const int *hints_at) {
    int all = starts.count - 1, next = formula + 1, dead = 0;
    lemmas_from = all;
    lines = malloc((all + variables + 2) * sizeof *lines);
    add_units(order, 0, last >= 0 ? known_before[0] : count);
    for (int k = 0; k <= last; k++) {
        int step = steps.items[k];
        if (step >= 0 && wanted[step]) lines[line_count++] = (Line){step, first_hint.items[step - formula], hint_count.items[step - formula]};
        add_units(order, known_before[k], k < last ? known_before[k + 1] : count);
    }
    size_t room = (size_t)all + variables + 2;
    number = calloc(room, sizeof(int)), last_use = malloc(room * sizeof(int)), next_dead = malloc(room * sizeof(int));
    first_dead = malloc((line_count + 1) * sizeof(int));
    memset(last_use, -1, room * sizeof(int));
    memset(first_dead, -1, (line_count + 1) * sizeof(int));
    for (int k = hints_at[0]; k < hints_at[1]; k++) use(all_hints.items[k], line_count);
    for (int line = line_count - 1; line >= 0; line--)
        for (int k = 0; k < lines[line].count; k++) use(all_hints.items[lines[line].hint + k], line);
    for (int clause = 0; clause < formula; clause++) {
        number[clause] = clause + 1;
        if (last_use[clause] >= 0) continue;
        if (!dead) printf("%d d", formula);
        printf(" %d", clause + 1);
        dead = 1;
    }
    if (dead) puts(" 0");
    for (int line = 0; line <= line_count; line++) {
        int is_last = line == line_count, what = is_last ? 0 : lines[line].what;
        int start = is_last ? hints_at[0] : lines[line].hint, end = is_last ? hints_at[1] : start + lines[line].count;
        printf("%d", next);
        if (!is_last) number[index_of(what)] = next;
        if (!is_last && what < 0) printf(" %d", number_of(value[2 * ~what] > 0 ? 2 * ~what : 2 * ~what + 1));
        for (int k = 0; !is_last && what >= 0 && k < size_of(what); k++) printf(" %d", number_of(of(what)[k]));
        fputs(" 0", stdout);
        for (int k = start; k < end; k++) printf(" %d", number[index_of(all_hints.items[k])]);
        puts(" 0");
        if (!is_last && first_dead[line] >= 0) {
            printf("%d d", next);
            for (int at = first_dead[line]; at >= 0; at = next_dead[at]) printf(" %d", number[at]);
            puts(" 0");
        }
        next++;
    }
}

int main(int count, char **words) {
    if (count != 3) { fputs("usage: elaborate FORMULA REFUTATION > LRAT\n", stderr); return 2; }
    read_all(words[1], words[2]);
    int all = starts.count - 1, last, hints_at[2];
    size_t room = variables + 2;
    wanted = calloc(all + 1, 1), watched = calloc(2 * room, sizeof *watched), value = calloc(2 * room, 1);
    reason = malloc(room * sizeof(int)), position = malloc(room * sizeof(int)), trail = malloc(room * sizeof(int));
    wanted_unit = calloc(room, 1), marked = calloc(room, 1);
    known_before = malloc((steps.count + 1) * sizeof(int));
    for (int k = formula; k < all; k++) push(&first_hint, 0), push(&hint_count, 0);
    int conflict = forward(&last);
    if (conflict < 0) { fputs("elaborate: the refutation doesn't end in a false clause\n", stderr); return 1; }
    int found = known, *order = malloc(room * sizeof(int));
    first_reason = malloc(room * sizeof(int));
    memcpy(order, trail, known * sizeof(int)), memcpy(first_reason, reason, room * sizeof(int));
    backward(last, conflict, hints_at);
    for (int k = 0; k < found; k++) value[order[k]] = 1, value[negated(order[k])] = -1;
    write_lines(order, found, last, hints_at);
    return fflush(stdout) || ferror(stdout) ? 2 : 0;
}
