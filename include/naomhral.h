/* Naomhral: one hour of the Colombian wholesale electricity market, settled by a proved library.
 *
 * Make the library in the repository's top folder, then link it:
 *
 *     tools/build capi
 *     cc -Iinclude your.c target/staticlib/libcapi.a
 *
 * It is for x86-64 Linux. It keeps nothing between calls, takes no memory of its own but the stack, and may be called from several
 * threads at once, each with lists of its own. Over the recorded hours settling and a day stay under 7 KiB of stack, a page under 8, a
 * check under 23, a sheet's text under 72, a sheet made from it under 12, a statement's text under 37 and reading that under 1, with all
 * symbols bound before; the dynamic linker takes some 3 KiB more where it binds them in the first call.
 *
 * A list is lent by the place of its first cell and the count of its cells (bytes, for lists of bytes). The place is not NULL, even
 * for a list of no cells, and is aligned as C asks of the cell's type. A list that is written (not const) must not overlap any
 * other list of the same call, and nothing else, such as another thread, may change a lent list during the call. The caller sees
 * to it that each list really has as many cells as it says: nothing in the library can test that.
 *
 * Every function returns the refusal's number, 0 if there is none. docs/USING.md has the numbers, docs/FORMAT.md the sheet. A
 * refusal leaves the lent lists as they were, and cells past those needed keep their old values. Where a function has an answer
 * list, an answer shorter than stated is refused with 11 before all else, and then no cell of any list changes, the answer's own
 * among them.
 */
#ifndef NAOMHRAL_H
#define NAOMHRAL_H

#include <stddef.h>
#include <stdint.h>

/* Sizes that suffice for every sheet. */
#define NAOMHRAL_SHEET_MOST 10272 /* bytes of the longest sheet */
#define NAOMHRAL_FIGURES_MOST 384 /* cells: six for each of 64 agents */
#define NAOMHRAL_MONEY_MOST 64 /* cells: one for each of 64 agents */
#define NAOMHRAL_SCHEDULE_MOST 64 /* cells: one for each of 64 plants */
#define NAOMHRAL_AMOUNTS_MOST 256 /* cells: one for each of 256 contracts */
#define NAOMHRAL_PAGE_MOST 5120 /* bytes: no page is longer */
#define NAOMHRAL_SHEET_TEXT_MOST 72960 /* bytes: no sheet's text is longer */
#define NAOMHRAL_STATEMENT_TEXT_MOST 27547 /* bytes: no statement's text is longer */
#define NAOMHRAL_WEIGHTS_MOST 256 /* weights that sharing takes */
#define NAOMHRAL_REPORT_MOST 5424 /* cells: three for each of the 1808 bytes that mending can change */
#define NAOMHRAL_BOOK 124 /* cells of a day's book: five for each of 24 places, and four totals */
#define NAOMHRAL_BOOK_TOTALS 120 /* the first of the four totals */

/* The hours of a day. The part of hour h in a list of a day has as many cells as suffice for every sheet, from h times that on. */
#define NAOMHRAL_HOURS 24

/* The cells of the answers. */
#define NAOMHRAL_SUMMARY 5
#define NAOMHRAL_DAY_SUMMARIES 120 /* five an hour */
#define NAOMHRAL_READ_ANSWER 6
#define NAOMHRAL_WRITE_ANSWER 3
#define NAOMHRAL_PAGE_ANSWER 3
#define NAOMHRAL_CHECK_ANSWER 2
#define NAOMHRAL_WHY_ANSWER 8
#define NAOMHRAL_MEND_ANSWER 3
#define NAOMHRAL_ENTRY_ANSWER 6
#define NAOMHRAL_TEXT_ANSWER 3
#define NAOMHRAL_MAKE_ANSWER 4
#define NAOMHRAL_READ_STATEMENT_ANSWER 3

/* The refusals. */
enum {
    NAOMHRAL_SETTLED = 0,
    NAOMHRAL_BAD_LENGTH = 1,
    NAOMHRAL_BAD_LAYOUT = 2,
    NAOMHRAL_BAD_AGENT = 3,
    NAOMHRAL_BAD_BOUNDARY = 4,
    NAOMHRAL_BAD_PLANT = 5,
    NAOMHRAL_BAD_CONTRACT = 6,
    NAOMHRAL_BAD_EXPORTS = 7,
    NAOMHRAL_BAD_GAIN = 8,
    NAOMHRAL_UNSHARED = 9,
    NAOMHRAL_UNCOVERED = 10,
    NAOMHRAL_NO_ROOM = 11, /* a lent list is too short; of a day's book also: its cells are no book's */
    NAOMHRAL_NOT_THERE = 12, /* of a reason: no such plant or contract; of a day's book: an hour outside 0 to 23 */
    NAOMHRAL_OVERRUN = 13, /* must-runs sum to more than the plants have to meet; after 10 and before 11 */
    NAOMHRAL_OVER_BOOK = 16, /* an hour's demand, losses or bought over 4,000,000,000, or its price over 1,000,000 */
    /* of a statement alone: the first of the five points that fails */
    NAOMHRAL_SHARES_DIFFER = 21,
    NAOMHRAL_SCHEDULE_DIFFERS = 22,
    NAOMHRAL_PRICE_DIFFERS = 23,
    NAOMHRAL_AMOUNTS_DIFFER = 24,
    NAOMHRAL_LINES_DIFFER = 25
};

/* What is wrong with a line of a text: 30 and the fault's number in docs/FORMAT.md. None of them is a refusal of a sheet. */
enum {
    NAOMHRAL_LINE_WORD = 31, /* the first field is no word of the list */
    NAOMHRAL_LINE_FEW = 32, /* too few numbers */
    NAOMHRAL_LINE_MANY = 33, /* too many numbers */
    NAOMHRAL_LINE_NOT_A_NUMBER = 34,
    NAOMHRAL_LINE_TOO_LARGE = 35, /* a number is too large */
    NAOMHRAL_LINE_ROWS = 36, /* a row more than a sheet has room for, or that the sheet doesn't have */
    NAOMHRAL_LINE_TWICE = 37, /* of a statement: a row that stood before */
    NAOMHRAL_LINE_MISSING = 38 /* of a statement: a row has no line; told with the number of lines */
};

/* Why a plant is scheduled as it is: the first that holds. */
enum {
    NAOMHRAL_PLANT_NOTHING = 1, /* nothing available */
    NAOMHRAL_PLANT_FULL = 2, /* scheduled to the full */
    NAOMHRAL_PLANT_MUST = 3, /* only its must-run, which is above 0 */
    NAOMHRAL_PLANT_LAST = 4, /* partly scheduled, the last one needed */
    NAOMHRAL_PLANT_BEYOND = 5 /* not reached */
};

/* Why a contract is assigned its amount. */
enum {
    NAOMHRAL_CONTRACT_FIXED = 1,
    NAOMHRAL_CONTRACT_NEEDED = 2, /* conditional and needed */
    NAOMHRAL_CONTRACT_COVERED = 3, /* conditional, and the energy ahead already covered the demand */
    NAOMHRAL_CONTRACT_FITS = 4, /* demanded, in a price group that fits */
    NAOMHRAL_CONTRACT_SHARES = 5, /* in the group that shares */
    NAOMHRAL_CONTRACT_DEARER = 6 /* in a dearer group */
};

#ifdef __cplusplus
extern "C" {
#endif

/* Settles an hour. Refusals 1 to 10, 13 and 11, in this order. */
uint32_t naomhral_settle(
    const uint8_t *sheet, /* the sheet's bytes */
    size_t sheet_length, /* how many */
    uint32_t *figures, /* six cells an agent: loss share, own energy, generator import, contracted, bought, sold; kWh */
    size_t figures_length, /* at least 6 times the agents */
    int64_t *money, /* one cell an agent, centavos: above 0 is owed to the agent, below 0 by it */
    size_t money_length, /* at least the agents */
    uint32_t *schedule, /* one cell a plant, kWh */
    size_t schedule_length, /* at least the plants */
    uint32_t *amounts, /* one cell a contract, kWh */
    size_t amounts_length, /* at least the contracts */
    uint32_t *summary, /* number, place, price (centavos per kWh), demand and losses (kWh); the last three are 0 if refused */
    size_t summary_length /* at least 5 */
);

/* Settles the 24 hours of a day, each as naomhral_settle settles its sheet alone into its own part of the four lists: hour h's part
 * of the figures is the NAOMHRAL_FIGURES_MOST cells from NAOMHRAL_FIGURES_MOST times h on, and so in the other three. An hour that is
 * refused is told in its own summary and leaves its part as it was. Before any hour is read the whole call is refused, in all 24
 * summaries and by the number returned: 1 if the lengths sum to more than the bytes lent, then 11 if a list is too short for 24 parts.
 * Else 0 is returned, whatever the hours' own numbers are. The lengths are a plain array of 24, not a place and a count. */
uint32_t naomhral_day(
    const uint8_t *sheets, /* the sheets' bytes, one sheet behind another; bytes behind the last are not looked at */
    size_t sheets_length, /* at least the sum of the lengths */
    const uint32_t *lengths, /* the length of each hour's sheet: 24 cells */
    uint32_t *figures, /* as of naomhral_settle, hour by hour */
    size_t figures_length, /* at least 24 times NAOMHRAL_FIGURES_MOST */
    int64_t *money, /* as of naomhral_settle, hour by hour */
    size_t money_length, /* at least 24 times NAOMHRAL_MONEY_MOST */
    uint32_t *schedule, /* as of naomhral_settle, hour by hour */
    size_t schedule_length, /* at least 24 times NAOMHRAL_SCHEDULE_MOST */
    uint32_t *amounts, /* as of naomhral_settle, hour by hour */
    size_t amounts_length, /* at least 24 times NAOMHRAL_AMOUNTS_MOST */
    uint32_t *summaries, /* number, place, price, demand and losses of each hour, hour by hour */
    size_t summaries_length /* at least 120 */
);

/* Checks an administrator's statement of a sheet's hour: a price and the four lists, in the shape in which naomhral_settle leaves
 * them. Every statement that could be right is accepted, and no other. Refusals 1 to 10, 13 and 11 as in settling the sheet, where 11
 * is a list too short for the counts; then 21 to 25. Nothing but the answer is written. */
uint32_t naomhral_check(
    const uint8_t *sheet, /* the sheet's bytes */
    size_t sheet_length, /* how many */
    uint32_t price, /* their price, centavos per kWh */
    const uint32_t *figures, /* six cells an agent */
    size_t figures_length, /* at least 6 times the agents; cells past those needed are not looked at, here and below */
    const int64_t *money, /* one cell an agent, centavos */
    size_t money_length, /* at least the agents */
    const uint32_t *schedule, /* one cell a plant, kWh */
    size_t schedule_length, /* at least the plants */
    const uint32_t *amounts, /* one cell a contract, kWh */
    size_t amounts_length, /* at least the contracts */
    uint32_t *answer, /* number and place, 0 and 0 where it is accepted */
    size_t answer_length /* at least 2 */
);

/* Reads a sheet and counts its rows. Refusals 1 to 6. */
uint32_t naomhral_read(
    const uint8_t *sheet, /* the sheet's bytes */
    size_t sheet_length, /* how many */
    uint32_t *answer, /* number, place, then the counts of agents, boundaries, plants and contracts, 0 if refused */
    size_t answer_length /* at least 6 */
);

/* Writes a sheet from one list of numbers a section, the named fields row by row. Refusals 2 to 6, then 11. */
uint32_t naomhral_write(
    const uint32_t *agents, /* kind of each agent: 1 retailer, 2 generator, 3 small generator outside central dispatch */
    size_t agents_length, /* the agents, at most 64 */
    const uint32_t *boundaries, /* agent, factor, import, export of each boundary */
    size_t boundaries_length, /* 4 times the boundaries, at most 256 of them */
    const uint32_t *plants, /* agent, inflexible (0 or 1), must-run, price, availability of each plant */
    size_t plants_length, /* 5 times the plants, at most 64 of them */
    const uint32_t *contracts, /* seller, buyer, kind, price, quantity of each contract */
    size_t contracts_length, /* 5 times the contracts, at most 256 of them */
    uint8_t *out, /* the sheet */
    size_t out_length, /* at least 32 and 16 times all rows */
    uint32_t *answer, /* number, place, length written (0 if refused) */
    size_t answer_length /* at least 3 */
);

/* Shares an amount over weights by the sharing rule. Refusals 2 (more than 256 weights) and 11; the place is always 0. */
uint32_t naomhral_share(
    uint32_t amount, /* what is shared */
    const uint32_t *weights, /* the weights */
    size_t weights_length, /* how many, at most 256 */
    uint32_t *out, /* one share a weight */
    size_t out_length /* at least as many as the weights */
);

/* Writes the printed page of a sheet: the line `hour ..` and a line an agent, or the one line `refused N P`. A refused sheet's
 * page is a page, so 0 means that one was written; 11 means that it has no room, and then no byte is written. */
uint32_t naomhral_page(
    const uint8_t *sheet, /* the sheet's bytes */
    size_t sheet_length, /* how many */
    uint8_t *out, /* the page; no 0 byte ends it */
    size_t out_length, /* NAOMHRAL_PAGE_MOST is always enough */
    uint32_t *answer, /* number, place, length written (0 if refused) */
    size_t answer_length /* at least 3 */
);

/* Why a plant is scheduled as it is. Refusals 1 to 10 and 13 of the sheet, then 12, place the number asked for. */
uint32_t naomhral_why_plant(
    const uint8_t *sheet, /* the sheet's bytes */
    size_t sheet_length, /* how many */
    uint32_t plant, /* its number, from 0 */
    uint32_t *answer, /* number, place, reason, then scheduled, available and must-run (kWh), its offer and the bolsa price (centavos
                         per kWh); all but the first two are 0 if refused */
    size_t answer_length /* at least 8 */
);

/* Why a contract is assigned its amount. Refusals as above. */
uint32_t naomhral_why_contract(
    const uint8_t *sheet, /* the sheet's bytes */
    size_t sheet_length, /* how many */
    uint32_t contract, /* its number, from 0 */
    uint32_t *answer, /* number, place, reason, then quantity and amount (kWh), price (centavos per kWh), and two values in kWh: of reasons
                         2 and 3 the quantities ahead and the buyer's commercial demand, of 4 to 6 what is left when its price group
                         is reached and what the group asks in all; all but the first two are 0 if refused */
    size_t answer_length /* at least 8 */
);

/* Mends a sheet: a copy with its distances worked out from its counts and the unused bytes of agent and boundary rows set to 0, and a
 * report of every byte changed, in rising place. Nothing else differs. Refusals 1, 2 (only if a count is over its limit or the counts
 * don't fit the length) and 11. What is mended may still be refused with 3 to 6. */
uint32_t naomhral_mend(
    const uint8_t *sheet, /* the sheet's bytes */
    size_t sheet_length, /* how many */
    uint8_t *copy, /* the mended sheet, as long as the sheet */
    size_t copy_length, /* at least as many bytes as the sheet */
    uint32_t *report, /* three cells a change: place, old byte, new byte */
    size_t report_length, /* at least three times the changes; NAOMHRAL_REPORT_MOST is always enough */
    uint32_t *answer, /* number, place, how many bytes were changed (0 if refused) */
    size_t answer_length /* at least 3 */
);

/* A day's book is NAOMHRAL_BOOK cells that the caller keeps. Place h, of hour h, has the cells 5 h to 5 h + 4: held (1, and 0 where the
 * place is empty), demand, losses and bought in kWh, price in centavos per kWh; an empty place has zeros. Behind the places stand the
 * totals of the day: demand, losses, bought (kWh), bought money (centavos). Read any cell at any time, and write none: the totals are
 * brought up to date by the calls, never added up anew. Nothing else is asked of the cells: a call looks at its place and at the totals,
 * and refuses with 11 where calls from an empty book can't have left them so; then no cell changes. The place of 12 and 16 is the hour,
 * that of 11 is 0. Cells behind the first 124 are not looked at. */

/* Makes the cells an empty book. Refusal 11: fewer than 124 cells. */
uint32_t naomhral_book_empty(
    uint64_t *book, /* the cells */
    size_t book_length /* at least 124 */
);

/* Enters an hour, replacing one held. Refusals 11 (fewer than 124 cells), 12, 16, and 11 (no book's cells), in this order. */
uint32_t naomhral_book_enter(
    uint64_t *book, /* the cells */
    size_t book_length, /* at least 124 */
    uint32_t hour, /* 0 to 23 */
    uint32_t demand, /* kWh */
    uint32_t losses, /* kWh */
    uint32_t bought, /* kWh */
    uint32_t price /* centavos per kWh */
);

/* Removes an hour; an empty place stays as it is. Refusals 11 (fewer than 124 cells), 12, and 11 (no book's cells), in this order. */
uint32_t naomhral_book_remove(
    uint64_t *book, /* the cells */
    size_t book_length, /* at least 124 */
    uint32_t hour /* 0 to 23 */
);

/* What is entered of a settled hour: its demand, losses, bought kWh (the sum over all agents) and price. Hand in the sheet, and the
 * summary and the figures as naomhral_settle left them. A book takes every entry of a settled hour. A refused hour has no entry: its
 * number and place are handed on. 11 where the summary has fewer than 5 cells. */
uint32_t naomhral_entry(
    const uint8_t *sheet, /* the sheet's bytes */
    size_t sheet_length, /* how many */
    const uint32_t *summary, /* number, place, price, demand and losses */
    size_t summary_length, /* at least 5 */
    const uint32_t *figures, /* six cells an agent */
    size_t figures_length, /* as in naomhral_settle */
    uint32_t *answer, /* number, place, demand, losses, bought, price; the last four are 0 if refused */
    size_t answer_length /* at least 6 */
);

/* Sheets and statements as text: docs/FORMAT.md has both forms. A text is any bytes; no 0 byte ends it. Lines are told from 1, those
 * past 4294967295 as that. */

/* Writes the text of a sheet, which naomhral_make_sheet makes into the same sheet again. Refusals 1 to 6, then 11. */
uint32_t naomhral_sheet_text(
    const uint8_t *sheet, /* the sheet's bytes */
    size_t sheet_length, /* how many */
    uint8_t *out, /* the text */
    size_t out_length, /* NAOMHRAL_SHEET_TEXT_MOST is always enough */
    uint32_t *answer, /* number, place, length written (0 if refused) */
    size_t answer_length /* at least 3 */
);

/* Makes a sheet from its text: 31 to 36 for the first line that is wrong, then refusals 3 to 6 of what its rows say, then 11. */
uint32_t naomhral_make_sheet(
    const uint8_t *text, /* the text's bytes */
    size_t text_length, /* how many */
    uint8_t *out, /* the sheet */
    size_t out_length, /* NAOMHRAL_SHEET_MOST is always enough */
    uint32_t *answer, /* number, place (the row of 3 to 6, else 0), length written (0 if there is no sheet), and the line of what is
                         wrong or of the row refused (0 if it is of none) */
    size_t answer_length /* at least 4 */
);

/* Settles a sheet and writes the hour as a statement's text. Refusals 1 to 10 and 13, then 11. */
uint32_t naomhral_statement_text(
    const uint8_t *sheet, /* the sheet's bytes */
    size_t sheet_length, /* how many */
    uint8_t *out, /* the text */
    size_t out_length, /* NAOMHRAL_STATEMENT_TEXT_MOST is always enough */
    uint32_t *answer, /* number, place, length written (0 if refused) */
    size_t answer_length /* at least 3 */
);

/* Reads a statement's text into a price and four lists, in the shape in which naomhral_check takes them; every row of the sheet has its
 * line, once. 36 and line 0 if a count is over a sheet's limit or a list is too short for the counts, then 31 to 38 for the first line
 * that is wrong. Where the number is not 0 the four lists stay as they were. */
uint32_t naomhral_read_statement(
    const uint8_t *text, /* the text's bytes */
    size_t text_length, /* how many */
    uint32_t agents, /* how many agents the sheet has, as naomhral_read counts them */
    uint32_t plants, /* how many plants */
    uint32_t contracts, /* how many contracts */
    uint32_t *figures, /* six cells an agent */
    size_t figures_length, /* at least 6 times the agents */
    int64_t *money, /* one cell an agent, centavos */
    size_t money_length, /* at least the agents */
    uint32_t *schedule, /* one cell a plant, kWh */
    size_t schedule_length, /* at least the plants */
    uint32_t *amounts, /* one cell a contract, kWh */
    size_t amounts_length, /* at least the contracts */
    uint32_t *answer, /* number, line, price; 0, 0 and the price where all is read, else the price is 0 */
    size_t answer_length /* at least 3 */
);

#ifdef __cplusplus
}
#endif

#endif
