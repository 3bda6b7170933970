/* Inputs at the limits of the library, made by its own writer, for the tests in C. Each test that fails is said with its line, and main ends with the number of
 * those that failed. */
#ifndef TEST_INPUTS_H
#define TEST_INPUTS_H

#include "downgrater.h"

#include <stdio.h>
#include <string.h>

static int tested, failed;
#define HOLDS(what) holds((what), #what, __LINE__)
static void holds(int right, const char *what, int line)
{
    tested++;
    if (!right) {
        failed++;
        fprintf(stderr, "line %d: not so: %s\n", line, what);
    }
}

/* Whether the answer is the refusal. */
static inline int is_refusal(uint64_t answer, unsigned whose, unsigned number, uint32_t place)
{
    return dg_refused(answer) && dg_whose(answer) == whose && dg_number(answer) == number && dg_place(answer) == place;
}

/* A grammar as the writer takes it, and its file. */
struct grammar {
    uint8_t categories, start;
    uint16_t words, rules;
    uint8_t dimensions[DG_DIMENSION_BYTES];
    uint8_t records[DG_MOST_RULES * DG_RECORD_BYTES];
    uint8_t file[DG_FILE_BYTES];
    uint32_t length;
};

/* A rule more: a category, its daughters, the lengths of its components and its variables, or a word. */
static inline uint8_t *add_rule(struct grammar *g, uint8_t category)
{
    uint8_t *record = g->records + DG_RECORD_BYTES * g->rules++;
    memset(record, 0, DG_RECORD_BYTES);
    record[0] = category;
    return record;
}

static inline void add_word(struct grammar *g, uint8_t category, uint16_t word)
{
    uint8_t *record = add_rule(g, category);
    record[5] = (uint8_t)(word & 255);
    record[6] = (uint8_t)(word >> 8);
}

static inline uint64_t write_file(struct grammar *g, size_t room)
{
    uint64_t answer = dg_write_grammar(g->categories, g->start, g->words, g->rules, g->dimensions, sizeof g->dimensions,
                                       g->records, (size_t)g->rules * DG_RECORD_BYTES, g->file, room);
    g->length = dg_refused(answer) ? 0 : dg_value(answer);
    return answer;
}

/* A grammar with one category of dimension 1 and this many words: S(x) <- S(x), S(xy) <- S(x) S(y), S <- 0. */
static inline void chain(struct grammar *g, uint16_t words)
{
    memset(g, 0, sizeof *g);
    g->categories = 1;
    g->words = words;
    g->dimensions[0] = 1;
    uint8_t *one = add_rule(g, 0);
    one[1] = 1;
    one[7] = 1;
    uint8_t *two = add_rule(g, 0);
    two[1] = 2;
    two[7] = 2;
    two[12] = 4;
    add_word(g, 0, 0);
}

#endif
