/* The day a deposit opens, from year, month and day of its date and its term in months: the day's number and its date, and whether the deposit is open on the
 * day before, where there is one, and on that day; or, with status 1, R with the number and the place of the refusal, and what it says on standard error.
 * Output that cannot be written is said there too, with status 1.
 *
 *     cc -Iinclude examples/opening_day.c target/staticlib/libdowngrater.a -o opening_day && ./opening_day 2001 1 31 1 */
#include "downgrater.h"

#include <stdio.h>
#include <stdlib.h>

/* The number as it is written, or the largest of 32 bits, which is no year, month, day or term. */
static uint32_t number(const char *text)
{
    char *end;
    unsigned long long n = strtoull(text, &end, 10);
    return *text < '0' || *text > '9' || *end || n > UINT32_MAX ? UINT32_MAX : (uint32_t)n;
}

/* The status to end with, once all that was printed is written. */
static int ends(int status)
{
    if (fflush(stdout) || ferror(stdout)) {
        perror("opening_day: standard output");
        return 1;
    }
    return status;
}

static int refused(uint64_t answer)
{
    printf("R %u %u\n", dg_number(answer), (unsigned)dg_place(answer));
    fprintf(stderr, "opening_day: %s\n", dg_refusal_text(dg_number(answer)));
    return ends(1);
}

int main(int argc, char **argv)
{
    if (argc != 5) {
        fprintf(stderr, "opening_day YEAR MONTH DAY TERM\n");
        return 1;
    }
    uint32_t year = number(argv[1]), month = number(argv[2]), day = number(argv[3]), term = number(argv[4]);
    uint32_t opens, open;
    uint64_t answer = dg_opening_day(year, month, day, term);
    if (!dg_ok(answer, &opens))
        return refused(answer);
    uint64_t date = dg_date_of(opens);
    if (dg_refused(date))
        return refused(date);
    printf("%u: %u %u %u\n", (unsigned)opens, (unsigned)dg_year(date), (unsigned)dg_month(date), (unsigned)dg_day(date));
    for (uint32_t asked = opens > 0 ? opens - 1 : 0; asked <= opens; asked++) {
        answer = dg_is_open(year, month, day, term, asked);
        if (!dg_ok(answer, &open))
            return refused(answer);
        printf("%u: %u\n", (unsigned)asked, (unsigned)open);
    }
    return ends(0);
}
