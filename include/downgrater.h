/* The C interface of libdowngrater (target/staticlib/libdowngrater.a, written by `tools/build lib`).
 *
 * A slice is a pointer and then a length in elements; where the length is 0 the pointer may be null. Every function asks for valid pointers, for an output
 * that overlaps no input, and for nothing else: it refuses instead of failing, and a refused call changes no buffer. An output keeps what it held past the
 * last entry written. The functions keep no state and may be called from several threads; they need less than DG_STACK_BYTES of stack, and call memcpy and memset
 * alone.
 *
 * Every call returns one number, its answer:
 *
 *     bits      accepted      refused
 *     63        0             1
 *     40-47                   whose it is: 0 the grammar's author, 1 the analysis's, 2 the desk
 *     32-39                   number
 *     0-31      the value     place
 *
 * The value of the count is two: bits 0-29 the count, bits 30-59 the effort, which is never 0; that of dg_date_of is three, as said there; every other is one
 * number below 2^24. Every bit not named here is 0. Read an answer by the functions at the end of this file (dg_ok, dg_counted, ..): of a refused answer they
 * give UINT32_MAX and no figure. README.md has the refusals in words, docs/FORMAT.md the files byte by byte. */
#ifndef DOWNGRATER_H
#define DOWNGRATER_H

#include <stddef.h>
#include <stdint.h>

#ifdef __cplusplus
extern "C" {
#endif

/* The version: 10,000 times the first number, 100 times the second, and the third. The second number is that of the last of the archive's change requests (the papers
 * of document 02) that the library has. dg_version is of the library that is linked: where it is not DG_VERSION, this header is that of another one. */
#define DG_VERSION 10702
#define DG_VERSION_TEXT "1.7.2"
uint32_t dg_version(void);

/* The compiler warns of a call whose answer is not used, where it can. */
#if defined(__GNUC__)
#define DG_CHECKED __attribute__((warn_unused_result))
#elif defined(__cplusplus) && __cplusplus >= 201703L
#define DG_CHECKED [[nodiscard]]
#else
#define DG_CHECKED
#endif

/* The limits. What is above a limit named MOST is refused. */
enum dg_limit {
    /* of a grammar and its file */
    DG_MOST_CATEGORIES = 64,
    DG_MOST_DIMENSION = 4, /* components of a category */
    DG_MOST_WORDS = 4096,
    DG_EMPTY_WORD = 65535, /* of a lexical rule, and of an entry of a lexicon */
    DG_MOST_RULES = 256,   /* the lexical ones included */
    DG_MOST_DAUGHTERS = 3,
    DG_MOST_WEIGHT = 255,
    DG_DIMENSION_BYTES = 64,
    DG_RECORD_BYTES = 24,
    DG_RECORDS_IN_BLOCK = 21,
    DG_BLOCK_BYTES = 512,
    DG_MOST_BLOCKS = 14,
    DG_FILE_BYTES = 7168, /* of the longest file: an output of so many bytes holds every grammar file */
    /* of a sentence and its analyses */
    DG_MOST_PLACES = 96,
    DG_MOST_STEPS = 96,          /* of a trace */
    DG_MOST_NODES = 96,          /* of a tree, and as a node limit */
    DG_MOST_EFFORT = 1000000000, /* as an effort limit */
    DG_OUTPUT_NUMBERS = 96,      /* an output of fewer is refused with 23: of the conversions, of dg_entry and of dg_survey */
    /* of a lexicon */
    DG_MOST_ENTRIES = 32,
    DG_ENTRY_BYTES = 8,
    DG_MOST_FEATURES = 6,
    /* of dates */
    DG_FIRST_YEAR = 2000,
    DG_LAST_YEAR = 2399,
    DG_LAST_DAY = 146096, /* 31 December 2399; day 0 is 1 January 2000 */
    DG_MOST_TERM = 600,   /* months */
    /* of a call's stack, as measured for every call on inputs at or near the limits (tests/stack.c) */
    DG_STACK_BYTES = 131072
};

/* Whose a refusal is (dg_whose). */
enum dg_author { DG_GRAMMAR_AUTHOR = 0, DG_ANALYSIS_AUTHOR = 1, DG_DESK = 2 };

/* The numbers of the refusals (dg_number), and what each says, in the words of README.md. The lines between begin and end are made by tools/refusals.
 * refusals: begin */
enum dg_refusal {
    DG_REFUSED_FILE_LENGTH = 1,
    DG_REFUSED_CHECK = 2,
    DG_REFUSED_BLOCK = 3,
    DG_REFUSED_HEADING = 4,
    DG_REFUSED_RECORD_COUNT = 5,
    DG_REFUSED_CATEGORY = 6,
    DG_REFUSED_WORD = 7,
    DG_REFUSED_VARIABLES = 8,
    DG_REFUSED_UNUSED_BYTE = 9,
    DG_REFUSED_DOUBLE = 10,
    DG_REFUSED_SENTENCE = 11,
    DG_REFUSED_ANALYSIS_LENGTH = 12,
    DG_REFUSED_RULE = 13,
    DG_REFUSED_NO_PREDICTION = 14,
    DG_REFUSED_FRONT_CATEGORY = 15,
    DG_REFUSED_NEXT_WORD = 16,
    DG_REFUSED_PREDICTIONS_LEFT = 17,
    DG_REFUSED_WORDS_LEFT = 18,
    DG_REFUSED_TREE_ENDED = 19,
    DG_REFUSED_DAUGHTER_CATEGORY = 20,
    DG_REFUSED_NODES_LEFT = 21,
    DG_REFUSED_YIELD = 22,
    DG_REFUSED_OUTPUT = 23,
    DG_REFUSED_LIMIT = 24,
    DG_REFUSED_EFFORT = 25,
    DG_REFUSED_ENTRY = 26,
    DG_REFUSED_DATE = 27,
    DG_REFUSED_TERM = 28,
    DG_REFUSED_RANGE = 29,
    DG_REFUSED_LEXICON = 30,
    DG_REFUSED_MADE_GRAMMAR = 31
};

static inline const char *dg_refusal_text(unsigned number)
{
    switch (number) {
    case DG_REFUSED_FILE_LENGTH: return "the file's length is not 512 times 1 to 14";
    case DG_REFUSED_CHECK: return "a block's check is wrong";
    case DG_REFUSED_BLOCK: return "a block's number or its kind is wrong";
    case DG_REFUSED_HEADING: return "a heading value is out of range, the start is no category of dimension 1, an unused heading byte is not 0, or the writer is not given 64 dimension bytes";
    case DG_REFUSED_RECORD_COUNT: return "the number of blocks or of record bytes is wrong (place 0), or a block's record count is";
    case DG_REFUSED_CATEGORY: return "the rule's category or the category of a daughter does not exist, or it has more than 3 daughters";
    case DG_REFUSED_WORD: return "the category of a lexical rule has a dimension other than 1, or its word does not exist";
    case DG_REFUSED_VARIABLES: return "the variables of a nonlexical rule do not occur once each, or its component lengths do not add up";
    case DG_REFUSED_UNUSED_BYTE: return "an unused byte, or a byte of a field that the rule lacks, is not 0 (byte 23 of a record is its weight)";
    case DG_REFUSED_DOUBLE: return "the rule equals an earlier one, as it is or with its daughters in another order and its variables renumbered to match, weight aside; of a lexicon: the entry equals an earlier one";
    case DG_REFUSED_SENTENCE: return "the sentence has more than 96 places (place 96), or the lowest or the highest word of a place does not exist";
    case DG_REFUSED_ANALYSIS_LENGTH: return "the trace or tree has more than 96 numbers";
    case DG_REFUSED_RULE: return "there is no rule of this number";
    case DG_REFUSED_NO_PREDICTION: return "no prediction is left for the step";
    case DG_REFUSED_FRONT_CATEGORY: return "the rule is of another category than the front prediction";
    case DG_REFUSED_NEXT_WORD: return "the rule's word is not the next one: it does not lie between the ends of the next place, or no place is left";
    case DG_REFUSED_PREDICTIONS_LEFT: return "more predictions are left than steps, or the trace has no steps";
    case DG_REFUSED_WORDS_LEFT: return "words are left at the end of the trace";
    case DG_REFUSED_TREE_ENDED: return "the list ends before the tree does";
    case DG_REFUSED_DAUGHTER_CATEGORY: return "the rule is of another category than its parent's rule asks for, or at the root than the start";
    case DG_REFUSED_NODES_LEFT: return "numbers are left over after the tree";
    case DG_REFUSED_YIELD: return "the tree's yield does not fit the sentence: it is shorter or longer, or a word of it lies outside its place";
    case DG_REFUSED_OUTPUT: return "the output has room for fewer than 96 numbers, or, of the writer and of a made grammar, for fewer bytes than the file has";
    case DG_REFUSED_LIMIT: return "the node limit is not 1 to 96, or the effort limit is not 1 to 1,000,000,000";
    case DG_REFUSED_EFFORT: return "there are more live prefixes than the effort limit allows";
    case DG_REFUSED_ENTRY: return "the listing has no entry of this number";
    case DG_REFUSED_DATE: return "there is no such date, or the date or the day number lies outside 1 January 2000 to 31 December 2399";
    case DG_REFUSED_TERM: return "the term is over 600 months, or the opening day is after 31 December 2399";
    case DG_REFUSED_RANGE: return "the lowest word of a place is above its highest";
    case DG_REFUSED_LEXICON: return "the lexicon's length is not 8 times 1 to 32, its word count is not 1 to 4,096 or its start is not 1 to 15; or an entry has no feature, a byte that is no feature, a byte after the 0 that is not 0, or a word that does not exist";
    case DG_REFUSED_MADE_GRAMMAR: return "the made grammar would have over 64 categories or 256 rules, those of the new start included, or neither form of the wanted category is derivable";
    default: return "no refusal has this number";
    }
}
/* refusals: end */

/* A sentence is a list of places, as many as `words` says, each a number of 32 bits: the lowest word that may stand there in the lower 16 bits and the highest in
 * the upper 16, both included. Where a word is heard clearly the two are the same (dg_word, below). An end that is no word of the grammar is refused with 11,
 * and then a lowest word above the highest with 29, at the place. C cuts a number to 16 bits before dg_word or dg_words is given it. */

/* The reader; its value is the number of rules. */
DG_CHECKED uint64_t dg_read_grammar(const uint8_t *file, size_t file_len);

/* The writer of a grammar file; its value is the file's length. There are 64 dimension bytes, and 24 bytes a record; another number of dimension bytes is 4. C cuts
 * the four numbers to 8 and 16 bits before the writer is given them: test them against the limits above where they come from elsewhere. */
DG_CHECKED uint64_t dg_write_grammar(uint8_t categories, uint8_t start, uint16_t words, uint16_t rules,
                                     const uint8_t *dimensions, size_t dimensions_len,
                                     const uint8_t *records, size_t records_len,
                                     uint8_t *out, size_t out_len);

/* The grammar file of a lexicon of features; its value is the file's length, at most 7,168. An entry has 8 bytes: a word, the lower byte first (65,535 is the empty
 * word), and up to 6 features, ended by 0 or by the sixth: 1 to 15 a category, 17 to 31 its selector, 33 to 35 a licensor, 49 to 51 its licensee; bytes after
 * the 0 are 0. There are 1 to 32 entries, `words` is from 1 to 4,096 and `start`, the wanted category, from 1 to 15. The grammar's start category is a new one, so
 * that an analysis has one node more than the derivation that it stands for. Which numbers the categories and the rules have is not said.
 * 30 for what is no lexicon; then 10 for an entry that equals an earlier one, at its number; then 31 for more than 64 categories or 256 rules, or where the wanted
 * category is not derivable; then 23 for an output shorter than the file. */
DG_CHECKED uint64_t dg_make_grammar(const uint8_t *lexicon, size_t lexicon_len, uint32_t words, uint32_t start,
                                    uint8_t *out, size_t out_len);

/* The trace checker; its value is the number of steps. */
DG_CHECKED uint64_t dg_check_trace(const uint8_t *file, size_t file_len, const uint32_t *sentence, size_t words,
                                   const uint16_t *trace, size_t trace_len);

/* The tree checker; its value is the number of nodes. */
DG_CHECKED uint64_t dg_check_tree(const uint8_t *file, size_t file_len, const uint32_t *sentence, size_t words,
                                  const uint16_t *tree, size_t tree_len);

/* The weighing of a trace, refused as by the trace checker; its value is the sum of weights, one for each step. */
DG_CHECKED uint64_t dg_weigh_trace(const uint8_t *file, size_t file_len, const uint32_t *sentence, size_t words,
                                   const uint16_t *trace, size_t trace_len);

/* The weighing of a tree, refused as by the tree checker; its value is the sum of weights, one for each node. */
DG_CHECKED uint64_t dg_weigh_tree(const uint8_t *file, size_t file_len, const uint32_t *sentence, size_t words,
                                  const uint16_t *tree, size_t tree_len);

/* The conversions; their value is the number of nodes, and they ask an output of 96 numbers. */
DG_CHECKED uint64_t dg_trace_to_tree(const uint8_t *file, size_t file_len, const uint32_t *sentence, size_t words,
                                     const uint16_t *trace, size_t trace_len, uint16_t *out, size_t out_len);
DG_CHECKED uint64_t dg_tree_to_trace(const uint8_t *file, size_t file_len, const uint32_t *sentence, size_t words,
                                     const uint16_t *tree, size_t tree_len, uint16_t *out, size_t out_len);

/* The count of analyses with at most node_limit nodes; its value is count and effort. */
DG_CHECKED uint64_t dg_count(const uint8_t *file, size_t file_len, const uint32_t *sentence, size_t words,
                             uint64_t node_limit, uint64_t effort_limit);

/* An entry of the listing, from 0 to one below the count; its value is the number of steps, and it asks an output of 96 numbers. Each call walks the whole search,
 * as dg_count does, since it has to know the whole effort: to list all entries takes as many walks as there are entries. */
DG_CHECKED uint64_t dg_entry(const uint8_t *file, size_t file_len, const uint32_t *sentence, size_t words,
                             uint64_t node_limit, uint64_t effort_limit, uint64_t entry,
                             uint16_t *out, size_t out_len);

/* The survey; its value is the number of categories, and it asks an output of 96 numbers. */
DG_CHECKED uint64_t dg_survey(const uint8_t *file, size_t file_len, uint16_t *out, size_t out_len);

/* Dates, from 1 January 2000, which is day 0, to 31 December 2399, which is day 146,096, in the Gregorian calendar. No grammar is asked for. A year is written
 * in full; months and days are counted from 1. What is no date of that span is refused with 27, also a year, month or day with bits that a date has no room for. */

/* A date's number, which is the value. */
DG_CHECKED uint64_t dg_day_number(uint32_t year, uint32_t month, uint32_t day);

/* A number's one date; its value is three numbers, bits 16-31 the year, bits 8-15 the month, bits 0-7 the day. 27 from 146,097 on. */
DG_CHECKED uint64_t dg_date_of(uint64_t number);

/* The opening day of a deposit of a date, after a term in months; its value is the day's number. 27 for the date; then 28 for a term over 600 or an opening
 * day after 31 December 2399. */
DG_CHECKED uint64_t dg_opening_day(uint32_t year, uint32_t month, uint32_t day, uint64_t term);

/* Whether that deposit is open on the day with the number asked; its value is 1 from the opening day on, and 0 before it, also before the deposit's date. 27 for
 * the date or for the day asked; then 28, as above. Read it by dg_says_open: a refused answer is not 0. */
DG_CHECKED uint64_t dg_is_open(uint32_t year, uint32_t month, uint32_t day, uint64_t term, uint64_t asked);

/* A place of a sentence: a single word, or any of the words from the lowest to the highest. */
static inline uint32_t dg_words(uint16_t lowest, uint16_t highest) { return (uint32_t)highest << 16 | lowest; }
static inline uint32_t dg_word(uint16_t word) { return dg_words(word, word); }

/* An answer, taken apart. What an answer does not have is UINT32_MAX: the value, the count, the effort or the date of a refused one; the value of a count or of a
 * date; the count, the effort or the date of any other answer; the place of an accepted one, and whose it is. No call takes UINT32_MAX as a day, a term, an
 * entry, a limit or the length of an input. But it is not 0, and with 1 added it is: ask dg_refused or dg_ok before a value is used as true or false, in a sum,
 * or in fewer bits. */
static inline int dg_refused(uint64_t answer) { return (int)(answer >> 63); }

/* Of a refusal: whose it is (enum dg_author), its number (enum dg_refusal), and its place. The number of an accepted answer is 0, which is no refusal's. */
static inline unsigned dg_whose(uint64_t answer) { return dg_refused(answer) ? (unsigned)(answer >> 40) & 255 : UINT32_MAX; }
static inline unsigned dg_number(uint64_t answer) { return dg_refused(answer) ? (unsigned)(answer >> 32) & 255 : 0; }
static inline uint32_t dg_place(uint64_t answer) { return dg_refused(answer) ? (uint32_t)answer : UINT32_MAX; }

/* The value, where it is one number: of every call but dg_count and dg_date_of. dg_ok also says whether there is one: 1, or 0 with UINT32_MAX in *value. */
static inline uint32_t dg_value(uint64_t answer) { return answer >> 24 ? UINT32_MAX : (uint32_t)answer; }
DG_CHECKED static inline int dg_ok(uint64_t answer, uint32_t *value)
{
    *value = dg_value(answer);
    return *value != UINT32_MAX;
}

/* Of the answer of dg_is_open alone: 1 where the deposit is open; 0 where it is not, and where the call was refused. */
static inline int dg_says_open(uint64_t answer) { return answer == 1; }

/* Of the answer of dg_count alone. An effort is at least 1, so that a number below 2^30 is no count. */
static inline int dg_is_count(uint64_t answer) { return !dg_refused(answer) && answer >> 30; }
static inline uint32_t dg_counted(uint64_t answer) { return dg_is_count(answer) ? (uint32_t)answer & ((1u << 30) - 1) : UINT32_MAX; }
static inline uint32_t dg_effort(uint64_t answer) { return dg_is_count(answer) ? (uint32_t)(answer >> 30) & ((1u << 30) - 1) : UINT32_MAX; }

/* Of the answer of dg_date_of alone. A year is from 2000 to 2399, so that a number without such a year is no date. */
static inline int dg_is_date(uint64_t answer) { return answer >> 16 >= DG_FIRST_YEAR && answer >> 16 <= DG_LAST_YEAR; }
static inline uint32_t dg_year(uint64_t answer) { return dg_is_date(answer) ? (uint32_t)(answer >> 16) : UINT32_MAX; }
static inline uint32_t dg_month(uint64_t answer) { return dg_is_date(answer) ? (uint32_t)(answer >> 8) & 255 : UINT32_MAX; }
static inline uint32_t dg_day(uint64_t answer) { return dg_is_date(answer) ? (uint32_t)answer & 255 : UINT32_MAX; }

#ifdef __cplusplus
}
#endif

#endif
