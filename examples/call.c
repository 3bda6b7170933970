/* Counts and lists the analyses of the sentence in the folder DIR by the grammar there, through the C interface. Prints count and effort, then one trace a
 * line, and ends with status 0; or R with the number and the place of the refusal, what it says on standard error, and status 1. A file that cannot be read,
 * a sentence file of even length and output that cannot be written are said on standard error, and end with status 1 too. With places after DIR, it takes these
 * in place of the sentence's words, with the node limit of its file: a place is a word, or the lowest and the highest that may have been said.
 *
 *     cc -Iinclude examples/call.c target/staticlib/libdowngrater.a -o call && ./call examples/pair
 *     ./call examples/unclear 0 1-2 3-4 */
#include "downgrater.h"

#include <stdio.h>
#include <stdlib.h>

/* One place more than a sentence can have, so that a sentence that is too long is refused. */
enum { EFFORT_LIMIT = 1000000, PLACES = DG_MOST_PLACES + 1 };

/* Reads a file of the folder into `room` bytes and gives how many it has; of a longer file one that is read to its end gives its length, any other `room`. Ends the
 * program where the file cannot be read. */
static size_t load(const char *dir, const char *name, uint8_t *bytes, size_t room, int to_its_end)
{
    static char path[4096];
    if (snprintf(path, sizeof path, "%s/%s", dir, name) >= (int)sizeof path) {
        fprintf(stderr, "call: the name of the folder is too long\n");
        exit(1);
    }
    FILE *file = fopen(path, "rb");
    if (!file) {
        perror(path);
        exit(1);
    }
    size_t length = fread(bytes, 1, room, file);
    if (to_its_end && length == room)
        while (getc(file) != EOF)
            length++;
    if (ferror(file)) { /* also where it is a folder */
        perror(path);
        exit(1);
    }
    fclose(file);
    return length;
}

/* The word at the front of the text, which is moved past it; 65,535, which is no word, where there is none or the number is larger. */
static uint16_t word(char **text)
{
    char *from = *text;
    unsigned long n = strtoul(from, text, 10);
    return *from < '0' || *from > '9' || n > UINT16_MAX ? UINT16_MAX : (uint16_t)n;
}

/* The place that the text says: WORD or LOWEST-HIGHEST. */
static uint32_t place(char *text)
{
    uint16_t lowest = word(&text), highest = lowest;
    if (*text == '-') {
        text++;
        highest = word(&text);
    }
    return *text ? dg_word(UINT16_MAX) : dg_words(lowest, highest);
}

/* The status to end with, once all that was printed is written. */
static int ends(int status)
{
    if (fflush(stdout) || ferror(stdout)) {
        perror("call: standard output");
        return 1;
    }
    return status;
}

static int refused(uint64_t answer)
{
    printf("R %u %u\n", dg_number(answer), (unsigned)dg_place(answer));
    fprintf(stderr, "call: %s\n", dg_refusal_text(dg_number(answer)));
    return ends(1);
}

int main(int argc, char **argv)
{
    const char *dir = argc > 1 ? argv[1] : "examples/pair";
    static uint8_t grammar[DG_FILE_BYTES + 1]; /* one byte more than a grammar file can have, so that a longer one is refused */
    static uint8_t bytes[1 + 2 * PLACES];      /* the node limit, then two bytes a word */
    size_t length = load(dir, "grammar", grammar, sizeof grammar, 0);
    size_t given = load(dir, "sentence", bytes, sizeof bytes, 1);
    if (given % 2 == 0) {
        fprintf(stderr, "call: %s/sentence has an even length: it is the node limit in one byte, and two bytes a word\n", dir);
        return 1;
    }
    size_t words = given / 2 < PLACES ? given / 2 : PLACES;
    uint32_t sentence[PLACES];
    for (size_t i = 0; i < words; i++)
        sentence[i] = dg_word((uint16_t)(bytes[1 + 2 * i] | bytes[2 + 2 * i] << 8));
    if (argc > 2)
        for (words = 0; words < PLACES && words + 2 < (size_t)argc; words++)
            sentence[words] = place(argv[words + 2]);

    uint64_t answer = dg_count(grammar, length, sentence, words, bytes[0], EFFORT_LIMIT);
    if (dg_refused(answer))
        return refused(answer);
    printf("%u %u\n", (unsigned)dg_counted(answer), (unsigned)dg_effort(answer));

    for (uint32_t m = 0; m < dg_counted(answer) && !ferror(stdout); m++) {
        uint16_t trace[DG_OUTPUT_NUMBERS];
        uint32_t steps;
        uint64_t entry = dg_entry(grammar, length, sentence, words, bytes[0], EFFORT_LIMIT, m, trace, DG_OUTPUT_NUMBERS);
        if (!dg_ok(entry, &steps))
            return refused(entry);
        for (uint32_t k = 0; k < steps; k++)
            printf(k ? " %u" : "%u", (unsigned)trace[k]);
        printf("\n");
    }
    return ends(0);
}
