/* Makes the grammar file of a lexicon of features, from the file with its entries, its word count and its start category: writes the grammar file to standard
 * output; or, with status 1, R with the number and the place of the refusal and a line with what it says to standard error. A file that cannot be read and
 * output that cannot be written are said there too, with status 1. ROOM is the length of the output that the library is lent; without it there is room for
 * every grammar file.
 *
 *     cc -Iinclude examples/make_grammar.c target/staticlib/libdowngrater.a -o make_grammar && ./make_grammar examples/question/lexicon 8 2 >grammar */
#include "downgrater.h"

#include <stdio.h>
#include <stdlib.h>

/* One byte more than a lexicon can have, so that one that is too long is refused. */
enum { LEXICON_ROOM = DG_MOST_ENTRIES * DG_ENTRY_BYTES + 1 };

/* The number as it is written, or the largest of 32 bits, which is no word count and no start category, and as a room stands for that of every grammar file. */
static uint32_t number(const char *text)
{
    char *end;
    unsigned long long n = strtoull(text, &end, 10);
    return *text < '0' || *text > '9' || *end || n > UINT32_MAX ? UINT32_MAX : (uint32_t)n;
}

int main(int argc, char **argv)
{
    if (argc < 4 || argc > 5) {
        fprintf(stderr, "make_grammar LEXICON WORDS START [ROOM]\n");
        return 1;
    }
    FILE *file = fopen(argv[1], "rb");
    if (!file) {
        perror(argv[1]);
        return 1;
    }
    static uint8_t lexicon[LEXICON_ROOM], grammar[DG_FILE_BYTES];
    size_t entries = fread(lexicon, 1, sizeof lexicon, file);
    if (ferror(file)) { /* also where it is a folder */
        perror(argv[1]);
        return 1;
    }
    fclose(file);
    uint32_t room = argc > 4 ? number(argv[4]) : DG_FILE_BYTES;
    if (room > DG_FILE_BYTES)
        room = DG_FILE_BYTES;

    uint32_t length;
    uint64_t answer = dg_make_grammar(lexicon, entries, number(argv[2]), number(argv[3]), grammar, room);
    if (!dg_ok(answer, &length)) {
        fprintf(stderr, "R %u %u\nmake_grammar: %s\n", dg_number(answer), (unsigned)dg_place(answer), dg_refusal_text(dg_number(answer)));
        return 1;
    }
    if (fwrite(grammar, 1, length, stdout) != length || fflush(stdout)) {
        perror("make_grammar: standard output");
        return 1;
    }
    return 0;
}
