/* How deep the calls reach into the stack: each sheet of standard input (its length in four bytes, low byte first, then its bytes) is
   settled, printed, our own settlement of it checked, and a day settled whose 24 hours are that sheet; then it is written as text, made
   from that again, its statement written as text, and that read. Each call has a stack painted beforehand; the deepest byte that lost its
   paint is printed for each of the eight. Link it so that all symbols are bound before the start (-z now), or the dynamic linker's own
   stack is measured too. */
#include "naomhral.h"
#include <stdio.h>
#include <stdlib.h>
#include <string.h>
#include <ucontext.h>

enum { ROOM = 1 << 17, PAINT = 0xa5, CALLS = 8 };

static uint8_t stack[ROOM];
static uint8_t sheet[1 << 16];
static size_t length;
static uint32_t figures[NAOMHRAL_FIGURES_MOST];
static int64_t money[NAOMHRAL_MONEY_MOST];
static uint32_t schedule[NAOMHRAL_SCHEDULE_MOST];
static uint32_t amounts[NAOMHRAL_AMOUNTS_MOST];
static uint32_t summary[NAOMHRAL_SUMMARY];
static uint8_t text[NAOMHRAL_PAGE_MOST];
static uint32_t answer[NAOMHRAL_PAGE_ANSWER];
static uint8_t sheets[NAOMHRAL_HOURS * (1 << 16)];
static uint32_t lengths[NAOMHRAL_HOURS];
static uint32_t day_figures[NAOMHRAL_HOURS * NAOMHRAL_FIGURES_MOST];
static int64_t day_money[NAOMHRAL_HOURS * NAOMHRAL_MONEY_MOST];
static uint32_t day_schedule[NAOMHRAL_HOURS * NAOMHRAL_SCHEDULE_MOST];
static uint32_t day_amounts[NAOMHRAL_HOURS * NAOMHRAL_AMOUNTS_MOST];
static uint32_t summaries[NAOMHRAL_DAY_SUMMARIES];
static uint8_t sheet_text[NAOMHRAL_SHEET_TEXT_MOST];
static uint8_t statement_text[NAOMHRAL_STATEMENT_TEXT_MOST];
static uint8_t made[NAOMHRAL_SHEET_MOST];
static uint32_t written[NAOMHRAL_TEXT_ANSWER], made_answer[NAOMHRAL_MAKE_ANSWER], stated[NAOMHRAL_TEXT_ANSWER];
static uint32_t counts[NAOMHRAL_READ_ANSWER], read_answer[NAOMHRAL_READ_STATEMENT_ANSWER];
static ucontext_t here, there;

static void settle(void) {
    naomhral_settle(sheet, length, figures, NAOMHRAL_FIGURES_MOST, money, NAOMHRAL_MONEY_MOST, schedule, NAOMHRAL_SCHEDULE_MOST,
        amounts, NAOMHRAL_AMOUNTS_MOST, summary, NAOMHRAL_SUMMARY);
}

static void page(void) { naomhral_page(sheet, length, text, NAOMHRAL_PAGE_MOST, answer, NAOMHRAL_PAGE_ANSWER); }

static void check(void) {
    naomhral_check(sheet, length, summary[2], figures, NAOMHRAL_FIGURES_MOST, money, NAOMHRAL_MONEY_MOST, schedule,
        NAOMHRAL_SCHEDULE_MOST, amounts, NAOMHRAL_AMOUNTS_MOST, answer, NAOMHRAL_CHECK_ANSWER);
}

static void day(void) {
    naomhral_day(sheets, NAOMHRAL_HOURS * length, lengths, day_figures, NAOMHRAL_HOURS * NAOMHRAL_FIGURES_MOST, day_money,
        NAOMHRAL_HOURS * NAOMHRAL_MONEY_MOST, day_schedule, NAOMHRAL_HOURS * NAOMHRAL_SCHEDULE_MOST, day_amounts,
        NAOMHRAL_HOURS * NAOMHRAL_AMOUNTS_MOST, summaries, NAOMHRAL_DAY_SUMMARIES);
}

static void as_text(void) {
    naomhral_sheet_text(sheet, length, sheet_text, NAOMHRAL_SHEET_TEXT_MOST, written, NAOMHRAL_TEXT_ANSWER);
}

static void make(void) {
    naomhral_make_sheet(sheet_text, written[2], made, NAOMHRAL_SHEET_MOST, made_answer, NAOMHRAL_MAKE_ANSWER);
}

static void state(void) {
    naomhral_statement_text(sheet, length, statement_text, NAOMHRAL_STATEMENT_TEXT_MOST, stated, NAOMHRAL_TEXT_ANSWER);
}

static void read_back(void) {
    naomhral_read_statement(statement_text, stated[2], counts[2], counts[4], counts[5], figures, NAOMHRAL_FIGURES_MOST, money,
        NAOMHRAL_MONEY_MOST, schedule, NAOMHRAL_SCHEDULE_MOST, amounts, NAOMHRAL_AMOUNTS_MOST, read_answer,
        NAOMHRAL_READ_STATEMENT_ANSWER);
}

static void nothing(void) {}

/* The bytes of a painted stack that `run` leaves unpainted. */
static size_t depth(void (*run)(void)) {
    size_t painted = 0;
    memset(stack, PAINT, ROOM);
    if (getcontext(&there) != 0) exit(2);
    there.uc_stack.ss_sp = stack;
    there.uc_stack.ss_size = ROOM;
    there.uc_link = &here;
    makecontext(&there, run, 0);
    if (swapcontext(&here, &there) != 0) exit(2);
    while (painted < ROOM && stack[painted] == PAINT) painted++;
    return ROOM - painted;
}

int main(void) {
    static void (*const calls[CALLS])(void) = {settle, page, check, day, as_text, make, state, read_back};
    uint8_t head[4];
    size_t deepest[CALLS] = {0}, own = depth(nothing), count = 0;
    while (fread(head, 1, 4, stdin) == 4) {
        length = head[0] | (size_t)head[1] << 8 | (size_t)head[2] << 16 | (size_t)head[3] << 24;
        if (length > sizeof sheet || fread(sheet, 1, length, stdin) != length) return 2;
        for (size_t h = 0; h < NAOMHRAL_HOURS; h++) {
            memcpy(sheets + h * length, sheet, length);
            lengths[h] = (uint32_t)length;
        }
        naomhral_read(sheet, length, counts, NAOMHRAL_READ_ANSWER);
        for (size_t k = 0; k < CALLS; k++) {
            size_t now = depth(calls[k]);
            if (now > deepest[k]) deepest[k] = now;
        }
        /* checking comes right behind the settlement whose lists it takes: a sheet that settles is accepted */
        if (summary[0] == 0 && answer[0] != 0) return 2;
        /* a sheet that is accepted comes back from its text, and one that settles has a statement that can be read */
        if (counts[0] == 0 && (made_answer[0] != 0 || made_answer[2] != length || memcmp(made, sheet, length) != 0)) return 2;
        if (summary[0] == 0 && (stated[0] != 0 || read_answer[0] != 0 || read_answer[2] != summary[2])) return 2;
        count++;
    }
    if (ferror(stdin) || !feof(stdin)) return 2;
    printf("%zu", count);
    for (size_t k = 0; k < CALLS; k++) printf(" %zu", deepest[k] - own);
    printf("\n");
    return 0;
}
