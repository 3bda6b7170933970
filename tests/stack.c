/* The stack that each call needs, on inputs at or near the limits: a call runs on a stack of its own that was painted before, and the lowest byte that it wrote tells.
 * Prints bytes and call, and fails where a call needs DG_STACK_BYTES or more, or does not answer what it should on its input. */
#define _DEFAULT_SOURCE
#include "inputs.h"

#include <sys/mman.h>
#include <ucontext.h>

/* The analysis of `wide` has 62 words; its live prefixes, and those on 96 places. */
enum { ROOM = 4 << 20, PAINT = 0xa5, WIDE_WORDS = 62, WIDE_EFFORT = 622, NONE_EFFORT = 622 };

static struct grammar deep, wide, full;
static uint32_t sentence[DG_MOST_PLACES];
static uint16_t list[DG_MOST_STEPS], tree[DG_MOST_NODES], trace[DG_MOST_STEPS], out[DG_OUTPUT_NUMBERS];
static uint8_t bytes[DG_FILE_BYTES], lexicon[DG_MOST_ENTRIES * DG_ENTRY_BYTES];
static size_t entries;
static uint64_t answer;

#define ANALYSIS(g) (g).file, (g).length, sentence
static void reads(void) { answer = dg_read_grammar(full.file, full.length); }
static void writes(void)
{
    answer = dg_write_grammar(full.categories, full.start, full.words, full.rules, full.dimensions, sizeof full.dimensions, full.records,
                              sizeof full.records, bytes, sizeof bytes);
}
static void makes(void) { answer = dg_make_grammar(lexicon, DG_ENTRY_BYTES * entries, 19, 1, bytes, sizeof bytes); }
static void versions(void) { answer = dg_version(); }
static void checks_trace(void) { answer = dg_check_trace(ANALYSIS(deep), 1, list, DG_MOST_STEPS); }
static void checks_tree(void) { answer = dg_check_tree(ANALYSIS(deep), 1, list, DG_MOST_NODES); }
static void weighs_trace(void) { answer = dg_weigh_trace(ANALYSIS(deep), 1, list, DG_MOST_STEPS); }
static void weighs_tree(void) { answer = dg_weigh_tree(ANALYSIS(deep), 1, list, DG_MOST_NODES); }
static void trace_to_tree(void) { answer = dg_trace_to_tree(ANALYSIS(deep), 1, list, DG_MOST_STEPS, out, DG_OUTPUT_NUMBERS); }
static void tree_to_trace(void) { answer = dg_tree_to_trace(ANALYSIS(deep), 1, list, DG_MOST_NODES, out, DG_OUTPUT_NUMBERS); }
static void counts(void) { answer = dg_count(ANALYSIS(deep), 48, DG_MOST_NODES, 1000000); }

static void checks_wide_trace(void) { answer = dg_check_trace(ANALYSIS(wide), WIDE_WORDS, trace, DG_MOST_STEPS); }
static void checks_wide_tree(void) { answer = dg_check_tree(ANALYSIS(wide), WIDE_WORDS, tree, DG_MOST_NODES); }
static void weighs_wide_trace(void) { answer = dg_weigh_trace(ANALYSIS(wide), WIDE_WORDS, trace, DG_MOST_STEPS); }
static void weighs_wide_tree(void) { answer = dg_weigh_tree(ANALYSIS(wide), WIDE_WORDS, tree, DG_MOST_NODES); }
static void wide_to_tree(void) { answer = dg_trace_to_tree(ANALYSIS(wide), WIDE_WORDS, trace, DG_MOST_STEPS, out, DG_OUTPUT_NUMBERS); }
static void wide_to_trace(void) { answer = dg_tree_to_trace(ANALYSIS(wide), WIDE_WORDS, tree, DG_MOST_NODES, out, DG_OUTPUT_NUMBERS); }
static void counts_wide(void) { answer = dg_count(ANALYSIS(wide), WIDE_WORDS, DG_MOST_NODES, DG_MOST_EFFORT); }
static void lists(void) { answer = dg_entry(ANALYSIS(wide), WIDE_WORDS, DG_MOST_NODES, DG_MOST_EFFORT, 0, out, DG_OUTPUT_NUMBERS); }

/* 96 places: more than the words of an analysis of 96 nodes, so that words are left, or the yield is another */
static void leaves_words(void) { answer = dg_check_trace(ANALYSIS(wide), DG_MOST_PLACES, trace, DG_MOST_STEPS); }
static void yields_less(void) { answer = dg_check_tree(ANALYSIS(wide), DG_MOST_PLACES, tree, DG_MOST_NODES); }
static void counts_none(void) { answer = dg_count(ANALYSIS(wide), DG_MOST_PLACES, DG_MOST_NODES, DG_MOST_EFFORT); }
static void lists_none(void) { answer = dg_entry(ANALYSIS(wide), DG_MOST_PLACES, DG_MOST_NODES, DG_MOST_EFFORT, 0, out, DG_OUTPUT_NUMBERS); }
static void counts_full(void) { answer = dg_count(ANALYSIS(full), DG_MOST_PLACES, DG_MOST_NODES, 1000000); }
static void surveys(void) { answer = dg_survey(full.file, full.length, out, DG_OUTPUT_NUMBERS); }
static void numbers(void) { answer = dg_day_number(DG_LAST_YEAR, 12, 31); }
static void dates(void) { answer = dg_date_of(DG_LAST_DAY); }
static void opens(void) { answer = dg_opening_day(2349, 12, 31, DG_MOST_TERM); }
static void is_open(void) { answer = dg_is_open(2349, 12, 31, DG_MOST_TERM, DG_LAST_DAY); }

/* Rules of three daughters of dimension 4 and with twelve variables, of the categories from `from` on, up to 64 categories and 256 rules. */
static void fill(struct grammar *g, uint8_t from)
{
    g->categories = DG_MOST_CATEGORIES;
    g->words = DG_MOST_WORDS;
    memset(g->dimensions, DG_MOST_DIMENSION, sizeof g->dimensions);
    g->dimensions[0] = 1;
    while (g->rules < DG_MOST_RULES) {
        uint8_t k = (uint8_t)g->rules, those = (uint8_t)(DG_MOST_CATEGORIES - from);
        uint8_t *rule = add_rule(g, (uint8_t)(from + k % those));
        memcpy(rule + 1, (uint8_t[]){3, 1, (uint8_t)(from + 1 + k / those), 63, 0, 0, 3, 3, 3, 3}, 10);
        for (uint8_t i = 0; i < 12; i++)
            rule[11 + i] = (uint8_t)(4 * (i % 3) + i / 3);
    }
}

/* S(xyzw) <- T(x,y,z,w), T(x,y,z,w) <- U(x,y,z,w), U(x,y,z,w) <- Q(x,y,z,w), Q(ax,by,z,w) <- A(a) Q(x,y,z,w) A(b), Q(x,y,,) <- A(x) A(y), A <- 0: the analysis of 62 words
 * has 96 nodes. The other rules are of other categories. */
static void make_wide(void)
{
    enum { S, Q, A, T, U };
    memset(&wide, 0, sizeof wide);
    memcpy(add_rule(&wide, S) + 1, (uint8_t[]){1, T, 0, 0, 0, 0, 4, 0, 0, 0, 0, 1, 2, 3}, 14);
    memcpy(add_rule(&wide, Q) + 1, (uint8_t[]){3, A, Q, A, 0, 0, 2, 2, 1, 1, 0, 4, 8, 5, 6, 7}, 16);
    memcpy(add_rule(&wide, Q) + 1, (uint8_t[]){2, A, A, 0, 0, 0, 1, 1, 0, 0, 0, 4}, 12);
    add_word(&wide, A, 0);
    memcpy(add_rule(&wide, T) + 1, (uint8_t[]){1, U, 0, 0, 0, 0, 1, 1, 1, 1, 0, 1, 2, 3}, 14);
    memcpy(add_rule(&wide, U) + 1, (uint8_t[]){1, Q, 0, 0, 0, 0, 1, 1, 1, 1, 0, 1, 2, 3}, 14);
    fill(&wide, 5);
    wide.dimensions[A] = 1;
    for (size_t i = 0; i < DG_MOST_NODES; i++)
        tree[i] = i < 3 ? (uint16_t[]){0, 4, 5}[i] : i < 63 ? i % 2 ? 1 : 3 : i == 63 ? 2 : 3;
}

/* A start rule and a word, and rules of all other categories, which lead from one to another. */
static void make_full(void)
{
    memset(&full, 0, sizeof full);
    memcpy(add_rule(&full, 0) + 1, (uint8_t[]){1, 1, 0, 0, 0, 0, 4, 0, 0, 0, 0, 1, 2, 3}, 14);
    add_word(&full, 0, 0);
    fill(&full, 1);
}

/* 32 entries whose grammar has 64 categories and 256 rules. */
static void make_lexicon(void)
{
    static const uint8_t rows[9][4] = {{1}, {1, 49}, {1, 50}, {1, 51}, {17, 1}, {17, 17, 1}, {17, 17, 17, 1}, {3, 49}, {19, 33, 1}};
    for (uint8_t i = 0; i < DG_MOST_ENTRIES; i++) {
        uint8_t *entry = lexicon + DG_ENTRY_BYTES * entries++;
        if (i < 9)
            memcpy(entry + 2, rows[i], 4);
        else if (i < 14)
            entry[2] = (uint8_t)(4 + i - 9);
        else {
            entry[0] = (uint8_t)(i - 13);
            entry[2] = 1;
        }
    }
}

static uint32_t most;

/* Runs the call on a painted stack, and says how much of it was written. */
static void measure(const char *name, void (*call)(void), uint64_t right)
{
    static ucontext_t here, there;
    unsigned char *stack = (unsigned char *)mmap(0, ROOM, PROT_READ | PROT_WRITE, MAP_PRIVATE | MAP_ANONYMOUS, -1, 0);
    if (stack == MAP_FAILED || getcontext(&there)) {
        perror("tests/stack.c");
        failed++;
        return;
    }
    memset(stack, PAINT, ROOM);
    there.uc_stack.ss_sp = stack;
    there.uc_stack.ss_size = ROOM;
    there.uc_link = &here;
    makecontext(&there, call, 0);
    answer = ~(uint64_t)0;
    swapcontext(&here, &there);
    uint32_t free = 0;
    while (free < ROOM && stack[free] == PAINT)
        free++;
    uint32_t used = ROOM - free;
    munmap(stack, ROOM);
    printf("%8u  %s\n", (unsigned)used, name);
    tested++;
    if (answer != right) {
        fprintf(stderr, "%s answers %llx and not %llx\n", name, (unsigned long long)answer, (unsigned long long)right);
        failed++;
    }
    if (used >= DG_STACK_BYTES) {
        fprintf(stderr, "%s needs %u bytes of stack, and the header says less than %u\n", name, (unsigned)used, (unsigned)DG_STACK_BYTES);
        failed++;
    }
    if (used > most)
        most = used;
}

static uint64_t refusal(unsigned whose, unsigned number, uint32_t place) { return (uint64_t)1 << 63 | (uint64_t)whose << 40 | (uint64_t)number << 32 | place; }

int main(void)
{
    const uint64_t effort = refusal(DG_DESK, DG_REFUSED_EFFORT, 0);
    for (size_t i = 0; i < DG_MOST_PLACES; i++)
        sentence[i] = dg_word(0);
    chain(&deep, 1);
    make_wide();
    make_full();
    make_lexicon();
    list[DG_MOST_STEPS - 1] = 2;
    HOLDS(!dg_refused(write_file(&deep, sizeof deep.file)));
    HOLDS(dg_value(write_file(&wide, sizeof wide.file)) == DG_FILE_BYTES);
    HOLDS(dg_value(write_file(&full, sizeof full.file)) == DG_FILE_BYTES);
    HOLDS(dg_value(dg_tree_to_trace(ANALYSIS(wide), WIDE_WORDS, tree, DG_MOST_NODES, trace, DG_OUTPUT_NUMBERS)) == DG_MOST_STEPS);

    measure("dg_version", versions, DG_VERSION);
    measure("dg_read_grammar", reads, DG_MOST_RULES);
    measure("dg_write_grammar", writes, DG_FILE_BYTES);
    measure("dg_make_grammar", makes, DG_FILE_BYTES);
    HOLDS(bytes[3] == DG_MOST_CATEGORIES && bytes[7] + 256 * bytes[8] == DG_MOST_RULES);
    measure("dg_check_trace, one below the other", checks_trace, DG_MOST_STEPS);
    measure("dg_check_trace, dimension 4", checks_wide_trace, DG_MOST_STEPS);
    measure("dg_check_trace, 96 places", leaves_words, refusal(DG_ANALYSIS_AUTHOR, DG_REFUSED_WORDS_LEFT, WIDE_WORDS));
    measure("dg_check_tree, one below the other", checks_tree, DG_MOST_NODES);
    measure("dg_check_tree, dimension 4", checks_wide_tree, DG_MOST_NODES);
    measure("dg_check_tree, 96 places", yields_less, refusal(DG_ANALYSIS_AUTHOR, DG_REFUSED_YIELD, 0));
    measure("dg_weigh_trace, one below the other", weighs_trace, 0);
    measure("dg_weigh_trace, dimension 4", weighs_wide_trace, 0);
    measure("dg_weigh_tree, one below the other", weighs_tree, 0);
    measure("dg_weigh_tree, dimension 4", weighs_wide_tree, 0);
    measure("dg_trace_to_tree, one below the other", trace_to_tree, DG_MOST_NODES);
    measure("dg_trace_to_tree, dimension 4", wide_to_tree, DG_MOST_NODES);
    measure("dg_tree_to_trace, one below the other", tree_to_trace, DG_MOST_STEPS);
    measure("dg_tree_to_trace, dimension 4", wide_to_trace, DG_MOST_STEPS);
    measure("dg_count, refused for effort", counts, effort);
    measure("dg_count, dimension 4", counts_wide, (uint64_t)WIDE_EFFORT << 30 | 1);
    measure("dg_count, 96 places", counts_none, (uint64_t)NONE_EFFORT << 30);
    measure("dg_count, rules of all categories", counts_full, effort);
    measure("dg_entry, dimension 4", lists, DG_MOST_STEPS);
    measure("dg_entry, 96 places", lists_none, refusal(DG_DESK, DG_REFUSED_ENTRY, 0));
    measure("dg_survey", surveys, DG_MOST_CATEGORIES);
    measure("dg_day_number", numbers, DG_LAST_DAY);
    measure("dg_date_of", dates, (uint64_t)DG_LAST_YEAR << 16 | 12 << 8 | 31);
    measure("dg_opening_day", opens, DG_LAST_DAY);
    measure("dg_is_open", is_open, 1);
    printf("tests/stack.c: %d tests, %d failed; no call needs more than %u bytes of stack\n", tested, failed, (unsigned)most);
    return failed != 0;
}
