/* Checks a refutation in LRAT apart from `tsc`, for bench/refutations, which compiles it.

   lrat QUESTION TEXT

   QUESTION is what `tsc ask exact` writes of a source and a netlist; TEXT is what `tsc audit proof` reads: both, each with its end line,
   and a refutation after them. It prints what that has to say: `yes` with status 0, else its note with status 3. Lines are those of BLIF.
   A line of a refutation adds a clause, `NUMBER LITERAL .. 0 HINT .. 0`, or deletes some, `NUMBER d NUMBER .. 0`; lines whose first word is
   c are passed over, and so is what follows the first empty clause. Numbers of additions rise. The hints of an addition are numbers of
   clauses: where the literals of the new clause are false each of them has to be true, or leave one literal, which is true then, until one
   is false. RAT steps are refused.

   It is straight C that nothing is proved of, and shares no code with `tsc`: what `audit proof` says is compared with it, and how long that
   takes. */
#define PROGRAM "lrat"
#include "clauses.h"

static void says(const char *what, int line) {
    if (line) printf("tsc: line %d: %s\n", line, what);
    else printf("%s\n", what);
    exit(strcmp(what, "yes") ? 3 : 0);
}

// ---- lines: a `#` begins a comment, a `\` at the end joins the next physical line, and one that begins with `#tsc ` is a plan line

static char *at, *end;      // what is left of the text; no place after its last physical line
static int number = 1;      // of the physical line that comes next
static int line, is_plan;   // the line's number, and whether it is a plan line
static char **words;        // of the line: where each begins and ends
static size_t word_count, word_room;

static int is_blank(char c) { return c == ' ' || c == '\t' || c == '\r'; }

static void add_words(char *from, char *past) {
    for (;;) {
        while (from < past && is_blank(*from)) from++;
        if (from == past) return;
        if (word_count == word_room) {
            word_room = word_room ? 2 * word_room : 1024;
            words = realloc(words, 2 * word_room * sizeof *words);
            if (!words) stop("no memory", "");
        }
        words[2 * word_count] = from;
        while (from < past && !is_blank(*from)) from++;
        words[2 * word_count++ + 1] = from;
    }
}

// the words of the next line that has some; whether there is one
static int next_line(void) {
    for (word_count = 0; !word_count && at;) {
        int goes_on = 1;
        is_plan = 0, line = number;
        for (int joined = 0; goes_on && at; joined = 1) {
            char *feed = memchr(at, '\n', end - at), *past = feed ? feed : end, *hash;
            if (past > at && past[-1] == '\r') past--;
            if (!joined && past - at >= 5 && !memcmp(at, "#tsc ", 5)) is_plan = 1, at += 5;
            else if ((hash = memchr(at, '#', past - at))) past = hash;
            goes_on = !is_plan && past > at && past[-1] == '\\';
            add_words(at, past - goes_on);
            at = feed ? feed + 1 : NULL;
            number++;
        }
    }
    return word_count > 0;
}

static int is_word(size_t place, const char *text) {
    size_t size = strlen(text);
    return place < word_count && (size_t)(words[2 * place + 1] - words[2 * place]) == size && !memcmp(words[2 * place], text, size);
}

// ---- numbers: below 2^31, with or without a - where they aren't 0

enum { OTHER = INT_MIN };

static int number_at(size_t place) {
    char *from = words[2 * place], *past = words[2 * place + 1];
    int negative = *from == '-';
    from += negative;
    if (from == past || past - from > 20) return OTHER;
    long made = 0;
    for (; from < past; from++) {
        if (*from < '0' || *from > '9') return OTHER;
        made = 10 * made + (*from - '0');
        if (made >= 1L << 31) return OTHER;
    }
    return !negative ? made : made ? -made : OTHER;
}

// the numbers from a place on up to the first 0, and the place after it; 0 where there is none, or something else comes
static size_t numbers_from(size_t place, List *list) {
    for (list->count = 0; place < word_count; place++) {
        int it = number_at(place);
        if (it == OTHER) return 0;
        if (it == 0) return place + 1;
        push(list, it);
    }
    return 0;
}

// ---- clauses that are there, by rising numbers; one that was deleted has no literals until the list is made shorter

typedef struct { int number, size, *literals; } Clause;
static Clause *clauses;
static size_t clause_count, clause_room, deleted;

static void shorten(void) {
    size_t kept = 0;
    for (size_t k = 0; k < clause_count; k++)
        if (clauses[k].literals) clauses[kept++] = clauses[k];
    clause_count = kept, deleted = 0;
}

static void add(int name, const List *literals) {
    if (deleted > clause_count / 2) shorten();
    if (clause_count == clause_room) {
        clause_room = clause_room ? 2 * clause_room : 1024;
        clauses = realloc(clauses, clause_room * sizeof *clauses);
    }
    int *own = malloc((literals->count + 1) * sizeof(int));
    if (!clauses || !own) stop("no memory", "");
    memcpy(own, literals->items, literals->count * sizeof(int));
    clauses[clause_count++] = (Clause){name, literals->count, own};
}

static Clause *found(int name) {
    size_t low = 0, high = clause_count;
    while (low < high) {
        size_t middle = low + (high - low) / 2;
        if (clauses[middle].number < name) low = middle + 1;
        else high = middle;
    }
    return low < clause_count && clauses[low].number == name && clauses[low].literals ? &clauses[low] : NULL;
}

// ---- steps

static signed char *value; // of variables: 1, -1, or 0 where nothing is known
static int last;           // the greatest number until now
static List learnt, literals, hints;

static int bit_of(int literal) { return literal < 0 ? -value[-literal] : value[literal]; }

static void learn(int literal) {
    value[abs(literal)] = literal < 0 ? -1 : 1;
    push(&learnt, abs(literal));
}

// Follows a hint. Returns 1 where its clause is false, 2 where it leaves two literals.
static int follow(const Clause *hint) {
    int open = 0, two = 0;
    for (int k = 0; k < hint->size; k++) {
        int literal = hint->literals[k], bit = bit_of(literal);
        if (bit > 0) return 0;
        if (bit == 0) two |= open && open != literal, open = open ? open : literal;
    }
    if (two) return 2;
    if (!open) return 1;
    learn(open);
    return 0;
}

// what is wrong with the line as an addition, or nothing
static const char *addition(void) {
    int name = number_at(0);
    size_t place = numbers_from(1, &literals);
    if (is_plan || name <= last || !place || numbers_from(place, &hints) != word_count) return "refutation shape";
    for (size_t k = 0; k < literals.count; k++)
        if (abs(literals.items[k]) > variables) return "refutation shape";
    const char *wrong = "hint";
    for (size_t k = 0; k < literals.count; k++) learn(-literals.items[k]);
    for (size_t k = 0; k < hints.count && hints.items[k] > 0; k++) {
        Clause *clause = found(hints.items[k]);
        int is = clause ? follow(clause) : 2;
        if (is == 0) continue;
        wrong = is == 1 ? NULL : clause ? "hint" : "no clause";
        break;
    }
    while (learnt.count) value[learnt.items[--learnt.count]] = 0;
    if (!wrong) add(name, &literals), last = name;
    return wrong;
}

static const char *deletion(void) {
    if (is_plan || number_at(0) < 0 || numbers_from(2, &hints) != word_count) return "refutation shape";
    for (size_t k = 0; k < hints.count; k++)
        if (hints.items[k] < 0) return "refutation shape";
    for (size_t k = 0; k < hints.count; k++, deleted++) {
        Clause *clause = found(hints.items[k]);
        if (!clause) return "no clause";
        free(clause->literals);
        clause->literals = NULL;
    }
    return NULL;
}

// ---- the whole

static void read_question(const char *path) {
    char *text = clauses_of(path);
    for (; is_more(&text); literals.count = 0) {
        for (int literal; (literal = literal_at(&text)) != 0;) push(&literals, literal);
        add(++last, &literals);
    }
    value = calloc(variables + 1, 1);
}

static void read_text(const char *path) {
    size_t size;
    at = text_of(path, &size), end = at + size;
    if (size > 1 << 26) says("tsc: limit: 67108864 bytes", 0);
    for (char *it = at; it < end; it++) {
        if ((*it < 32 || *it > 126) && *it != '\t' && *it != '\r' && *it != '\n') says("byte", number);
        number += *it == '\n';
    }
    number = 1;
    for (int ends = 0; ends < 2 && next_line();) ends += !is_plan && is_word(0, ".end");
}

int main(int count, char **given) {
    if (count != 3) { fputs("usage: lrat QUESTION TEXT\n", stderr); return 2; }
    read_question(given[1]);
    read_text(given[2]);
    int some = 0;
    for (; next_line(); some = 1) {
        if (!is_plan && is_word(0, "c")) continue;
        const char *wrong = is_word(1, "d") ? deletion() : addition();
        if (wrong) says(wrong, line);
        if (!is_word(1, "d") && !literals.count) says("yes", 0);
    }
    says(some ? "tsc: unfinished" : "tsc: no refutation", 0);
}
