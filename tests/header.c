/* What include/downgrater.h says, held to the library: the functions that take an answer apart fail closed, of answers of every kind and of answers put together
 * here; UINT32_MAX is taken by no call as a day, a term, an entry, a limit or the length of an input; the version and the limits are the library's; every refusal
 * has its text. */
#include "inputs.h"

#define NONE UINT32_MAX

/* Of a refused answer there is no figure. */
static void no_figure(uint64_t answer)
{
    uint32_t value = 0;
    HOLDS(dg_refused(answer));
    HOLDS(dg_value(answer) == NONE && dg_counted(answer) == NONE && dg_effort(answer) == NONE);
    HOLDS(dg_year(answer) == NONE && dg_month(answer) == NONE && dg_day(answer) == NONE);
    HOLDS(!dg_ok(answer, &value) && value == NONE && !dg_says_open(answer));
    HOLDS(dg_number(answer) >= 1 && dg_number(answer) <= 37 && dg_whose(answer) <= DG_DESK && dg_place(answer) != NONE);
}

/* Of an accepted answer there is no refusal. */
static void no_refusal(uint64_t answer)
{
    HOLDS(!dg_refused(answer));
    HOLDS(dg_number(answer) == 0 && dg_whose(answer) == NONE && dg_place(answer) == NONE);
}

/* An answer that is one number, and no count and no date. */
static void is_value(uint64_t answer, uint32_t expected)
{
    uint32_t value = 0;
    no_refusal(answer);
    HOLDS(dg_value(answer) == expected && dg_ok(answer, &value) && value == expected);
    HOLDS(dg_counted(answer) == NONE && dg_effort(answer) == NONE && dg_year(answer) == NONE && dg_month(answer) == NONE && dg_day(answer) == NONE);
}

static void is_count(uint64_t answer, uint32_t count, uint32_t effort)
{
    uint32_t value = 0;
    no_refusal(answer);
    HOLDS(dg_counted(answer) == count && dg_effort(answer) == effort);
    HOLDS(dg_value(answer) == NONE && !dg_ok(answer, &value) && value == NONE);
    HOLDS(dg_year(answer) == NONE && dg_month(answer) == NONE && dg_day(answer) == NONE);
}

static void is_date(uint64_t answer, uint32_t year, uint32_t month, uint32_t day)
{
    uint32_t value = 0;
    no_refusal(answer);
    HOLDS(dg_year(answer) == year && dg_month(answer) == month && dg_day(answer) == day);
    HOLDS(dg_value(answer) == NONE && !dg_ok(answer, &value) && value == NONE && dg_counted(answer) == NONE && dg_effort(answer) == NONE);
}

/* Answers put together here, with every field at its ends. */
static void all_answers(void)
{
    for (uint64_t whose = 0; whose <= 2; whose++)
        for (uint64_t number = 1; number <= 31; number++)
            for (uint64_t place = 0; place <= 65535; place += 4369) {
                uint64_t answer = (uint64_t)1 << 63 | whose << 40 | number << 32 | place;
                no_figure(answer);
                HOLDS(is_refusal(answer, (unsigned)whose, (unsigned)number, (uint32_t)place));
            }
    for (uint32_t value = 0; value <= DG_LAST_DAY; value++)
        if (value < 300 || value % 997 == 0 || value == DG_LAST_DAY)
            is_value(value, value);
    uint32_t efforts[] = {1, 2, 3, 4, 12, 1023, 1024, 999999999, DG_MOST_EFFORT};
    for (size_t i = 0; i < sizeof efforts / sizeof *efforts; i++) {
        is_count((uint64_t)efforts[i] << 30, 0, efforts[i]);
        is_count((uint64_t)efforts[i] << 30 | 1, 1, efforts[i]);
        is_count((uint64_t)efforts[i] << 30 | efforts[i], efforts[i], efforts[i]);
    }
}

/* No call takes UINT32_MAX as a day, a term, an entry, a limit or the length of an input. Nothing past the buffers is read: a length is looked at first. */
static void not_taken(void)
{
    static struct grammar g;
    chain(&g, 1);
    HOLDS(!dg_refused(write_file(&g, sizeof g.file)));
    uint32_t sentence[1] = {dg_word(0)};
    uint16_t trace[1] = {2}, out[DG_OUTPUT_NUMBERS] = {0};
    uint8_t lexicon[DG_ENTRY_BYTES] = {0}, made[DG_FILE_BYTES];
    no_figure(dg_date_of(NONE));
    no_figure(dg_is_open(2000, 1, 1, 0, NONE));
    no_figure(dg_opening_day(NONE, NONE, NONE, NONE));
    no_figure(dg_opening_day(2000, 1, 1, NONE));
    no_figure(dg_day_number(NONE, 1, 1));
    no_figure(dg_day_number(2000, NONE, 1));
    no_figure(dg_day_number(2000, 1, NONE));
    no_figure(dg_read_grammar(g.file, NONE));
    no_figure(dg_count(g.file, NONE, sentence, 1, 1, 1));
    no_figure(dg_count(g.file, g.length, sentence, NONE, 1, 1));
    no_figure(dg_count(g.file, g.length, sentence, 1, NONE, 1));
    no_figure(dg_count(g.file, g.length, sentence, 1, 1, NONE));
    no_figure(dg_entry(g.file, g.length, sentence, 1, 1, DG_MOST_EFFORT, NONE, out, DG_OUTPUT_NUMBERS));
    no_figure(dg_check_trace(g.file, g.length, sentence, 1, trace, NONE));
    no_figure(dg_check_tree(g.file, g.length, sentence, 1, trace, NONE));
    no_figure(dg_weigh_trace(g.file, g.length, sentence, 1, trace, NONE));
    no_figure(dg_weigh_tree(g.file, g.length, sentence, 1, trace, NONE));
    no_figure(dg_trace_to_tree(g.file, g.length, sentence, 1, trace, NONE, out, DG_OUTPUT_NUMBERS));
    no_figure(dg_tree_to_trace(g.file, g.length, sentence, 1, trace, NONE, out, DG_OUTPUT_NUMBERS));
    no_figure(dg_survey(g.file, NONE, out, DG_OUTPUT_NUMBERS));
    no_figure(dg_write_grammar(1, 0, 1, 1, g.dimensions, NONE, g.records, DG_RECORD_BYTES, g.file, sizeof g.file));
    no_figure(dg_write_grammar(1, 0, 1, 1, g.dimensions, DG_DIMENSION_BYTES, g.records, NONE, g.file, sizeof g.file));
    no_figure(dg_make_grammar(lexicon, NONE, 1, 1, made, sizeof made));
    no_figure(dg_make_grammar(lexicon, DG_ENTRY_BYTES, NONE, 1, made, sizeof made));
    no_figure(dg_make_grammar(lexicon, DG_ENTRY_BYTES, 1, NONE, made, sizeof made));
}

/* One chain of unchecked calls: a mistyped date, day 30 of February, opens no deposit. */
static void mistyped_date(void)
{
    uint64_t opens = dg_opening_day(2026, 2, 30, 1);
    uint64_t date = dg_date_of(dg_value(opens));
    HOLDS(is_refusal(opens, DG_DESK, DG_REFUSED_DATE, 0));
    HOLDS(is_refusal(date, DG_DESK, DG_REFUSED_DATE, 0));
    HOLDS(dg_year(date) == NONE);
    no_figure(dg_is_open(2026, 1, 1, 0, dg_value(opens)));
    no_figure(dg_is_open(2026, 2, 30, 1, DG_LAST_DAY));
    HOLDS(dg_says_open(dg_is_open(2026, 2, 28, 1, DG_LAST_DAY)));
    HOLDS(!dg_says_open(dg_is_open(2026, 2, 28, 1, 0)));
}

/* The limits of a grammar: its largest file, and one more of everything. */
static void grammar_limits(void)
{
    static struct grammar g;
    chain(&g, DG_MOST_WORDS);
    while (g.rules < DG_MOST_RULES)
        add_word(&g, 0, (uint16_t)(DG_MOST_WORDS + 2 - g.rules));
    g.records[DG_RECORD_BYTES * DG_MOST_RULES - 1] = DG_MOST_WEIGHT;
    is_value(write_file(&g, DG_FILE_BYTES), DG_FILE_BYTES);
    is_value(dg_read_grammar(g.file, g.length), DG_MOST_RULES);
    HOLDS(DG_MOST_WEIGHT == UINT8_MAX);
    HOLDS(DG_FILE_BYTES == DG_MOST_BLOCKS * DG_BLOCK_BYTES && DG_MOST_BLOCKS == 1 + (DG_MOST_RULES + DG_RECORDS_IN_BLOCK - 1) / DG_RECORDS_IN_BLOCK);
    HOLDS(is_refusal(write_file(&g, DG_FILE_BYTES - 1), DG_DESK, DG_REFUSED_OUTPUT, 0));
    HOLDS(is_refusal(dg_read_grammar(g.file, DG_FILE_BYTES + DG_BLOCK_BYTES), DG_GRAMMAR_AUTHOR, DG_REFUSED_FILE_LENGTH, 0));
    g.words = DG_MOST_WORDS + 1;
    HOLDS(is_refusal(write_file(&g, DG_FILE_BYTES), DG_GRAMMAR_AUTHOR, DG_REFUSED_HEADING, 0));
    g.words = DG_MOST_WORDS - 1; /* rule 3 has the last word */
    HOLDS(is_refusal(write_file(&g, DG_FILE_BYTES), DG_GRAMMAR_AUTHOR, DG_REFUSED_WORD, 3));
    g.words = DG_MOST_WORDS;
    g.rules = DG_MOST_RULES + 1;
    HOLDS(is_refusal(dg_write_grammar(1, 0, 1, g.rules, g.dimensions, DG_DIMENSION_BYTES, g.records, sizeof g.records, g.file, sizeof g.file),
                     DG_GRAMMAR_AUTHOR, DG_REFUSED_HEADING, 0));

    chain(&g, 1);
    g.categories = DG_MOST_CATEGORIES;
    memset(g.dimensions, DG_MOST_DIMENSION, sizeof g.dimensions);
    g.dimensions[0] = 1;
    is_value(write_file(&g, DG_FILE_BYTES), 2 * DG_BLOCK_BYTES);
    g.dimensions[1]++;
    HOLDS(is_refusal(write_file(&g, DG_FILE_BYTES), DG_GRAMMAR_AUTHOR, DG_REFUSED_HEADING, 0));
    g.dimensions[1]--;
    HOLDS(is_refusal(dg_write_grammar(DG_MOST_CATEGORIES, 0, 1, 1, g.dimensions, DG_DIMENSION_BYTES - 1, g.records, DG_RECORD_BYTES, g.file, sizeof g.file),
                     DG_GRAMMAR_AUTHOR, DG_REFUSED_HEADING, 0));
    HOLDS(is_refusal(dg_write_grammar(DG_MOST_CATEGORIES, 0, 1, 1, g.dimensions, DG_DIMENSION_BYTES, g.records, DG_RECORD_BYTES - 1, g.file, sizeof g.file),
                     DG_GRAMMAR_AUTHOR, DG_REFUSED_RECORD_COUNT, 0));
    g.categories = DG_MOST_CATEGORIES + 1;
    HOLDS(is_refusal(write_file(&g, DG_FILE_BYTES), DG_GRAMMAR_AUTHOR, DG_REFUSED_HEADING, 0));

    chain(&g, 1);
    uint8_t *three = add_rule(&g, 0);
    three[1] = DG_MOST_DAUGHTERS;
    three[7] = DG_MOST_DAUGHTERS;
    three[12] = 4;
    three[13] = 8;
    is_value(write_file(&g, DG_FILE_BYTES), 2 * DG_BLOCK_BYTES);
    three[1]++;
    HOLDS(is_refusal(write_file(&g, DG_FILE_BYTES), DG_GRAMMAR_AUTHOR, DG_REFUSED_CATEGORY, 3));
    three[1] = 0;
    three[7] = three[12] = three[13] = 0;
    three[5] = three[6] = 255; /* the empty word */
    HOLDS((three[5] | three[6] << 8) == DG_EMPTY_WORD);
    is_value(write_file(&g, DG_FILE_BYTES), 2 * DG_BLOCK_BYTES);
}

/* The limits of a sentence and its analyses. The sentence of 96 words is counted under 96 nodes: each word is a node, so no analysis has as few. */
static void analysis_limits(void)
{
    static struct grammar g;
    chain(&g, 1);
    HOLDS(!dg_refused(write_file(&g, sizeof g.file)));
    uint32_t sentence[DG_MOST_PLACES + 1];
    uint16_t steps[DG_MOST_STEPS + 1] = {0}, out[DG_OUTPUT_NUMBERS] = {0};
    for (size_t i = 0; i < DG_MOST_PLACES + 1; i++)
        sentence[i] = dg_word(0);
    steps[DG_MOST_STEPS - 1] = 2; /* 95 rules of one daughter, and then the word: trace and tree are the same list */
    is_value(dg_check_trace(g.file, g.length, sentence, 1, steps, DG_MOST_STEPS), DG_MOST_STEPS);
    is_value(dg_check_tree(g.file, g.length, sentence, 1, steps, DG_MOST_NODES), DG_MOST_NODES);
    HOLDS(is_refusal(dg_check_trace(g.file, g.length, sentence, 1, steps, DG_MOST_STEPS + 1), DG_ANALYSIS_AUTHOR, DG_REFUSED_ANALYSIS_LENGTH, 0));
    HOLDS(is_refusal(dg_check_tree(g.file, g.length, sentence, 1, steps, DG_MOST_NODES + 1), DG_ANALYSIS_AUTHOR, DG_REFUSED_ANALYSIS_LENGTH, 0));
    is_value(dg_trace_to_tree(g.file, g.length, sentence, 1, steps, DG_MOST_STEPS, out, DG_OUTPUT_NUMBERS), DG_MOST_NODES);
    is_value(dg_tree_to_trace(g.file, g.length, sentence, 1, steps, DG_MOST_NODES, out, DG_OUTPUT_NUMBERS), DG_MOST_STEPS);
    is_value(dg_survey(g.file, g.length, out, DG_OUTPUT_NUMBERS), 1);
    HOLDS(is_refusal(dg_trace_to_tree(g.file, g.length, sentence, 1, steps, DG_MOST_STEPS, out, DG_OUTPUT_NUMBERS - 1), DG_DESK, DG_REFUSED_OUTPUT, 0));
    HOLDS(is_refusal(dg_tree_to_trace(g.file, g.length, sentence, 1, steps, DG_MOST_NODES, out, DG_OUTPUT_NUMBERS - 1), DG_DESK, DG_REFUSED_OUTPUT, 0));
    HOLDS(is_refusal(dg_survey(g.file, g.length, out, DG_OUTPUT_NUMBERS - 1), DG_DESK, DG_REFUSED_OUTPUT, 0));
    HOLDS(is_refusal(dg_entry(g.file, g.length, sentence, 1, 1, 9, 0, out, DG_OUTPUT_NUMBERS - 1), DG_DESK, DG_REFUSED_OUTPUT, 0));
    is_value(dg_entry(g.file, g.length, sentence, 1, 1, 9, 0, out, DG_OUTPUT_NUMBERS), 1);
    HOLDS(is_refusal(dg_entry(g.file, g.length, sentence, 1, 1, 9, 1, out, DG_OUTPUT_NUMBERS), DG_DESK, DG_REFUSED_ENTRY, 0));
    /* with N = 1: the empty list, and the word */
    is_count(dg_count(g.file, g.length, sentence, 1, 1, DG_MOST_EFFORT), 1, 2);
    HOLDS(is_refusal(dg_count(g.file, g.length, sentence, 1, 1, 1), DG_DESK, DG_REFUSED_EFFORT, 0));
    HOLDS(is_refusal(dg_count(g.file, g.length, sentence, 1, 1, (uint64_t)DG_MOST_EFFORT + 1), DG_DESK, DG_REFUSED_LIMIT, 0));
    HOLDS(is_refusal(dg_count(g.file, g.length, sentence, 1, 1, 0), DG_DESK, DG_REFUSED_LIMIT, 0));
    HOLDS(is_refusal(dg_count(g.file, g.length, sentence, 1, DG_MOST_NODES, 99), DG_DESK, DG_REFUSED_EFFORT, 0));
    HOLDS(is_refusal(dg_count(g.file, g.length, sentence, 1, DG_MOST_NODES + 1, 99), DG_DESK, DG_REFUSED_LIMIT, 0));
    HOLDS(is_refusal(dg_count(g.file, g.length, sentence, DG_MOST_PLACES, DG_MOST_NODES, 99), DG_DESK, DG_REFUSED_EFFORT, 0));
    HOLDS(is_refusal(dg_count(g.file, g.length, sentence, DG_MOST_PLACES + 1, DG_MOST_NODES, 99), DG_ANALYSIS_AUTHOR, DG_REFUSED_SENTENCE, DG_MOST_PLACES));
    sentence[0] = dg_words(0, 1);
    HOLDS(is_refusal(dg_count(g.file, g.length, sentence, 1, 1, 9), DG_ANALYSIS_AUTHOR, DG_REFUSED_SENTENCE, 0));
}

/* The limits of a lexicon: entries with the same category and other words. */
static void lexicon_limits(void)
{
    uint8_t lexicon[(DG_MOST_ENTRIES + 1) * DG_ENTRY_BYTES] = {0}, made[DG_FILE_BYTES];
    for (uint8_t i = 0; i <= DG_MOST_ENTRIES; i++) {
        lexicon[DG_ENTRY_BYTES * i] = i;
        lexicon[DG_ENTRY_BYTES * i + 2] = 1;
    }
    uint64_t length = DG_MOST_ENTRIES * DG_ENTRY_BYTES;
    is_value(dg_make_grammar(lexicon, length, DG_MOST_WORDS, 1, made, sizeof made), 3 * DG_BLOCK_BYTES); /* 32 rules and that of the new start */
    HOLDS(is_refusal(dg_make_grammar(lexicon, length + DG_ENTRY_BYTES, DG_MOST_WORDS, 1, made, sizeof made), DG_GRAMMAR_AUTHOR, DG_REFUSED_LEXICON, 0));
    HOLDS(is_refusal(dg_make_grammar(lexicon, length, DG_MOST_WORDS + 1, 1, made, sizeof made), DG_GRAMMAR_AUTHOR, DG_REFUSED_LEXICON, 0));
    HOLDS(is_refusal(dg_make_grammar(lexicon, length, DG_MOST_WORDS, 16, made, sizeof made), DG_GRAMMAR_AUTHOR, DG_REFUSED_LEXICON, 0));
    HOLDS(is_refusal(dg_make_grammar(lexicon, length, DG_MOST_WORDS, 2, made, sizeof made), DG_GRAMMAR_AUTHOR, DG_REFUSED_MADE_GRAMMAR, 0));
    memcpy(lexicon + DG_ENTRY_BYTES, lexicon, DG_ENTRY_BYTES);
    HOLDS(is_refusal(dg_make_grammar(lexicon, length, DG_MOST_WORDS, 1, made, sizeof made), DG_GRAMMAR_AUTHOR, DG_REFUSED_DOUBLE, 1));
    memset(lexicon + 2, 1, DG_MOST_FEATURES); /* six features, and no byte behind them */
    HOLDS(2 + DG_MOST_FEATURES == DG_ENTRY_BYTES);
    is_value(dg_make_grammar(lexicon, length, DG_MOST_WORDS, 1, made, sizeof made), 3 * DG_BLOCK_BYTES);
}

static void date_limits(void)
{
    is_value(dg_day_number(DG_FIRST_YEAR, 1, 1), 0);
    is_value(dg_day_number(DG_LAST_YEAR, 12, 31), DG_LAST_DAY);
    HOLDS(is_refusal(dg_day_number(DG_FIRST_YEAR - 1, 12, 31), DG_DESK, DG_REFUSED_DATE, 0));
    HOLDS(is_refusal(dg_day_number(DG_LAST_YEAR + 1, 1, 1), DG_DESK, DG_REFUSED_DATE, 0));
    is_date(dg_date_of(0), DG_FIRST_YEAR, 1, 1);
    is_date(dg_date_of(DG_LAST_DAY), DG_LAST_YEAR, 12, 31);
    no_figure(dg_date_of(DG_LAST_DAY + 1));
    is_value(dg_opening_day(2000, 1, 31, DG_MOST_TERM), 18293); /* 31 January 2050 */
    is_date(dg_date_of(18293), 2050, 1, 31);
    HOLDS(is_refusal(dg_opening_day(2000, 1, 31, DG_MOST_TERM + 1), DG_DESK, DG_REFUSED_TERM, 0));
    is_value(dg_is_open(2000, 1, 31, DG_MOST_TERM, 18292), 0);
    is_value(dg_is_open(2000, 1, 31, DG_MOST_TERM, 18293), 1);
}

static void texts(void)
{
    const char *none = dg_refusal_text(0);
    for (unsigned number = 1; number <= 300; number++)
        HOLDS((strcmp(dg_refusal_text(number), none) != 0) == (number <= DG_REFUSED_MADE_GRAMMAR));
    for (unsigned number = 1; number <= DG_REFUSED_MADE_GRAMMAR; number++)
        for (unsigned other = 1; other < number; other++)
            HOLDS(strcmp(dg_refusal_text(number), dg_refusal_text(other)) != 0);
    HOLDS(strcmp(dg_refusal_text(UINT32_MAX), none) == 0);
}

static void version(void)
{
    char text[32];
    HOLDS(dg_version() == DG_VERSION);
    snprintf(text, sizeof text, "%u.%u.%u", DG_VERSION / 10000u, DG_VERSION / 100u % 100u, DG_VERSION % 100u);
    HOLDS(strcmp(text, DG_VERSION_TEXT) == 0);
}

int main(void)
{
    all_answers();
    not_taken();
    mistyped_date();
    grammar_limits();
    analysis_limits();
    lexicon_limits();
    date_limits();
    texts();
    version();
    printf("tests/header.c: %d tests, %d failed\n", tested, failed);
    return failed != 0;
}
