/* Settles one sheet: prints its page and a line of what is owed in all.
 *
 *     tools/build capi
 *     cc -Wall -Wextra -Werror -Iinclude examples/hour.c target/staticlib/libcapi.a -o target/hour
 *     target/hour examples/worked-hour.sheet
 *
 * The exit status is 0 for a settled hour, 1 for a refused one and 2 where the file could not be read or the output not written.
 */
#include <stdio.h>

#include "naomhral.h"

/* One byte more than the longest sheet, so that a longer file is seen to be longer. */
static uint8_t sheet[NAOMHRAL_SHEET_MOST + 1];

static int read_sheet(const char *name, size_t *length) {
    FILE *file = fopen(name, "rb");
    if (file == NULL) {
        perror(name);
        return 0;
    }
    *length = fread(sheet, 1, sizeof sheet, file);
    int failed = ferror(file);
    if (failed) {
        perror(name);
    }
    fclose(file);
    return !failed;
}

static void print_page(size_t length) {
    static uint8_t page[NAOMHRAL_PAGE_MOST];
    uint32_t answer[NAOMHRAL_PAGE_ANSWER];
    if (naomhral_page(sheet, length, page, sizeof page, answer, NAOMHRAL_PAGE_ANSWER) == NAOMHRAL_SETTLED) {
        fwrite(page, 1, answer[2], stdout);
    }
}

/* The status that was meant, if all that was printed could be written. */
static int finish(int status) {
    if (fflush(stdout) != 0 || ferror(stdout)) {
        perror("hour: standard output");
        return 2;
    }
    return status;
}

int main(int count, char **words) {
    size_t length = 0;
    if (count != 2) {
        fprintf(stderr, "usage: hour SHEET\n");
        return 2;
    }
    if (!read_sheet(words[1], &length)) {
        return 2;
    }
    print_page(length);

    static uint32_t figures[NAOMHRAL_FIGURES_MOST];
    static int64_t money[NAOMHRAL_MONEY_MOST];
    static uint32_t schedule[NAOMHRAL_SCHEDULE_MOST];
    static uint32_t amounts[NAOMHRAL_AMOUNTS_MOST];
    uint32_t summary[NAOMHRAL_SUMMARY];
    uint32_t refusal = naomhral_settle(sheet, length, figures, NAOMHRAL_FIGURES_MOST, money, NAOMHRAL_MONEY_MOST, schedule,
        NAOMHRAL_SCHEDULE_MOST, amounts, NAOMHRAL_AMOUNTS_MOST, summary, NAOMHRAL_SUMMARY);
    if (refusal != NAOMHRAL_SETTLED) {
        printf("not settled: refusal %u at place %u\n", (unsigned)summary[0], (unsigned)summary[1]);
        return finish(1);
    }

    uint32_t counts[NAOMHRAL_READ_ANSWER];
    naomhral_read(sheet, length, counts, NAOMHRAL_READ_ANSWER);
    long long owed = 0;
    for (uint32_t a = 0; a < counts[2]; a++) {
        if (money[a] > 0) {
            owed += money[a];
        }
    }
    printf("settled: %u agents, %u centavos per kWh, %lld centavos change hands on the bolsa\n", (unsigned)counts[2],
        (unsigned)summary[2], owed);
    return finish(0);
}
