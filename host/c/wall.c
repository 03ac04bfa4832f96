/*
 * The workshop wall, W1 to W16: every number that document 01 gives, asked of the judge and the checkers as C calls them.
 *
 * Slices are lent filled with a number that none of the papers holds, and afterwards compared whole. Every example is judged three times:
 * with slices that have room behind them, and with the sheet, each slice and `out` fenced directly before and directly behind.
 */
#define _DEFAULT_SOURCE
#include <string.h>

#include "naxxurbi.h"
#include "fence.h"
#include "test.h"

enum { NUMBERS = NAXXURBI_NUMBERS, MOST = NUMBERS, LENT = 64, STATE = sizeof(naxxurbi_state), WORD = sizeof(uint32_t) };

static const uint32_t OLD = 0xDEADBEEF;

SHEET(w7, "W7", 0x01, 0x00, 0x0D, 0x02, 0x01, 0x00, 0x00, 0x00, 0x04, 0x00, 0x01, 0x01, 0x02);
SHEET(w8, "W8", 0x01, 0x00, 0x0D, 0x02, 0x01, 0x00, 0x00, 0x00, 0x04, 0x01, 0x01, 0x01, 0x02);
SHEET(w9, "W9", 0x01, 0x00, 0x0D, 0x02, 0x01, 0x00, 0x00, 0x00, 0x04, 0x01, 0x01, 0xFE, 0xFF);
SHEET(w10, "W10", 0x01, 0x00, 0x0D, 0x02, 0x01, 0x00, 0x00, 0x00, 0x04, 0x00, 0x01, 0xFF, 0x01);
SHEET(w11, "W11", 0x01, 0x00, 0x0D, 0x02, 0x01, 0x00, 0x00, 0x00, 0x04, 0x00, 0x00, 0xFF, 0x01);
SHEET(w12, "W12", 0x01, 0x00, 0x0B, 0x02, 0x01, 0x00, 0x00, 0x00, 0x02, 0x00, 0x00);
SHEET(w13, "W13", 0x01, 0x00, 0x12, 0x04, 0x01, 0x01, 0x00, 0x00, 0x06, 0x00, 0x01, 0x01, 0x02, 0x03, 0x04, 0x02, 0x01, 0x02);
SHEET(w14, "W14", 0x01, 0x00, 0x16, 0x04, 0x02, 0x01, 0x00, 0x00, 0x04, 0x00, 0x01, 0x01, 0x02, 0x05, 0x00, 0x02, 0x02, 0x03, 0x04, 0x02,
      0x01, 0x02);
/* W4 with another version. */
SHEET(bad, "a bad sheet", 0x02, 0x00, 0x14, 0x01, 0x00, 0x01, 0x02, 0x01, 0x01, 0x01, 0x03, 0x01, 0x01, 0xFF, 0x03, 0x01, 0xFF, 0xFF, 0x01,
      0x01);

SHEET(twice, "a limit with a literal twice", 0x01, 0x00, 0x0D, 0x01, 0x01, 0x00, 0x00, 0x00, 0x04, 0x01, 0x01, 0x01, 0x01);

/* What is lent, and what should stand in it afterwards: the front, the rest of it, and beyond its length always OLD. */
struct slice {
    size_t len;
    size_t count;
    uint32_t front[MOST];
    uint32_t rest;
};

struct example {
    const struct sheet *sheet;
    const char *what;
    uint32_t out[NUMBERS];
    struct slice table;
    struct slice words;
    struct slice scratch;
    struct slice run;
};

/* Left alone, or all zero. */
#define UNCHANGED(len) {len, 0, {0}, 0xDEADBEEF}
#define ZEROS(len) {len, 0, {0}, 0}

static const struct example examples[] = {
    {&w1, "can be kept", {0, 2, 0, 1, 0}, {9, 2, {0, 1}, 0}, ZEROS(8), ZEROS(19), {7, 1, {0}, 0xDEADBEEF}},
    {&w2, "can be kept", {0, 2, 1, 2, 0}, {9, 2, {0, 1}, 0}, ZEROS(8), ZEROS(19), {7, 2, {0, 1}, 0xDEADBEEF}},
    {&w3, "can be kept", {0, 2, 1, 3, 0}, {9, 2, {0, 1}, 0}, ZEROS(8), ZEROS(19), {7, 3, {0, 1, 0}, 0xDEADBEEF}},
    {&w4, "cannot be kept", {13, 2, 0, 0, 0}, {9, 2, {0, 1}, 0}, {8, 2, {33, 64}, 0}, ZEROS(19), UNCHANGED(7)},
    {&w5, "cannot be kept", {13, 2, 0, 0, 0}, {9, 2, {0, 1}, 0}, {8, 2, {32, 32}, 0}, ZEROS(19), UNCHANGED(7)},
    {&w6, "cannot be kept", {13, 0, 0, 0, 0}, ZEROS(9), ZEROS(8), ZEROS(19), UNCHANGED(7)},
    {&w6, "no room, and none needed", {13, 0, 0, 0, 0}, ZEROS(0), ZEROS(0), ZEROS(0), UNCHANGED(0)},
    {&w15, "cannot be kept", {13, 4, 0, 0, 0}, {9, 4, {775, 8711, 16647, 24583}, 0}, {8, 4, {32, 32, 32, 32}, 0}, ZEROS(19), UNCHANGED(7)},
    {&w15, "room for four", {13, 4, 0, 0, 0}, {4, 4, {775, 8711, 16647, 24583}, 0}, {4, 4, {32, 32, 32, 32}, 0}, ZEROS(8), UNCHANGED(0)},
    {&w15, "a table of three", {11, 0, 0, 0, 0}, ZEROS(3), ZEROS(4), ZEROS(8), UNCHANGED(7)},
    {&w15, "three words", {11, 0, 0, 0, 0}, ZEROS(4), ZEROS(3), ZEROS(8), UNCHANGED(7)},
    {&w15, "a scratch of seven", {11, 0, 0, 0, 0}, ZEROS(4), ZEROS(4), ZEROS(7), UNCHANGED(7)},
    /* W16 is W2 with less room. */
    {&w2, "W16, C = 1: table", {11, 0, 0, 0, 0}, ZEROS(1), ZEROS(9), ZEROS(9), UNCHANGED(5)},
    {&w2, "W16, C = 1: words", {11, 0, 0, 0, 0}, ZEROS(9), ZEROS(1), ZEROS(9), UNCHANGED(5)},
    {&w2, "W16, C = 1: scratch", {11, 0, 0, 0, 0}, ZEROS(9), ZEROS(9), ZEROS(3), UNCHANGED(5)},
    {&w2, "W16, C = 2, a run of one", {12, 0, 0, 2, 0}, ZEROS(2), ZEROS(2), ZEROS(4), UNCHANGED(1)},
    {&w2, "W16, C = 2, no run", {12, 0, 0, 2, 0}, ZEROS(2), ZEROS(2), ZEROS(4), UNCHANGED(0)},
    {&w2, "C = 2, a run of two", {0, 2, 1, 2, 0}, {2, 2, {0, 1}, 0}, ZEROS(2), ZEROS(4), {2, 2, {0, 1}, 0}},
    /* Version 2 stands in byte 0, the literal that does not ascend in byte 12. */
    {&bad, "nothing is changed", {2, 0, 0, 0, 0}, UNCHANGED(3), UNCHANGED(2), UNCHANGED(1), UNCHANGED(4)},
    {&twice, "nothing is changed", {9, 0, 0, 0, 12}, UNCHANGED(3), UNCHANGED(2), UNCHANGED(1), UNCHANGED(4)},
};

/* Whether the first `many` numbers, each so wide, are as wanted: the slice, and nothing beyond its length touched. */
static int is_as_wanted(const void *slice, size_t width, const struct slice *wanted, size_t many)
{
    for (size_t i = 0; i < many; i++) {
        uint32_t number = i < wanted->count ? wanted->front[i] : i < wanted->len ? wanted->rest : OLD;
        if (number_at(slice, i, width) != number) {
            return 0;
        }
    }
    return 1;
}

static void fill_states(naxxurbi_state *slice)
{
    for (size_t i = 0; i < LENT; i++) {
        slice[i] = OLD;
    }
}

static void fill_words(uint32_t *slice)
{
    for (size_t i = 0; i < LENT; i++) {
        slice[i] = OLD;
    }
}

static void judge_rows(void)
{
    naxxurbi_state table[LENT], scratch[LENT], run[LENT];
    uint32_t words[LENT], out[NUMBERS];
    for (size_t i = 0; i < sizeof examples / sizeof examples[0]; i++) {
        const struct example *row = &examples[i];
        const char *name = row->sheet->name;
        fill_states(table);
        fill_words(words);
        fill_states(scratch);
        fill_states(run);
        naxxurbi_judge(row->sheet->bytes, row->sheet->len, table, row->table.len, words, row->words.len, scratch, row->scratch.len, run,
                       row->run.len, out);
        for (size_t field = 0; field < NUMBERS; field++) {
            expect(name, row->what, out[field], row->out[field]);
        }
        expect(name, "table", (uint32_t)is_as_wanted(table, STATE, &row->table, LENT), 1);
        expect(name, "words", (uint32_t)is_as_wanted(words, WORD, &row->words, LENT), 1);
        expect(name, "scratch", (uint32_t)is_as_wanted(scratch, STATE, &row->scratch, LENT), 1);
        expect(name, "run", (uint32_t)is_as_wanted(run, STATE, &row->run, LENT), 1);
    }
}

/* One lent slice of numbers that are so wide, fenced: filled beforehand, and afterwards as wanted. */
static struct fenced lend(const struct slice *slice, size_t width, enum place place)
{
    naxxurbi_state states[LENT];
    uint32_t words[LENT];
    fill_states(states);
    fill_words(words);
    return fence(width == STATE ? (const void *)states : words, slice->len * width, place);
}

static uint32_t given_back(struct fenced lent, size_t width, const struct slice *wanted)
{
    int right = is_as_wanted(lent.at, width, wanted, wanted->len);
    return (uint32_t)(unfence(lent) && right);
}

static void *numbers(struct fenced lent)
{
    return lent.at;
}

/* One example with everything fenced. */
static void judge_fenced(const struct example *row, enum place place)
{
    const char *name = row->sheet->name;
    struct fenced sheet = fence_to_read(row->sheet->bytes, row->sheet->len, place);
    struct fenced table = lend(&row->table, STATE, place), words = lend(&row->words, WORD, place);
    struct fenced scratch = lend(&row->scratch, STATE, place), run = lend(&row->run, STATE, place);
    struct slice five = {NUMBERS, NUMBERS, {row->out[0], row->out[1], row->out[2], row->out[3], row->out[4]}, 0};
    struct fenced out = lend(&five, WORD, place);
    naxxurbi_judge(sheet.at, sheet.len, numbers(table), row->table.len, numbers(words), row->words.len, numbers(scratch), row->scratch.len,
                   numbers(run), row->run.len, numbers(out));
    expect(name, "fenced sheet", (uint32_t)unfence(sheet), 1);
    expect(name, "fenced out", given_back(out, WORD, &five), 1);
    expect(name, "fenced table", given_back(table, STATE, &row->table), 1);
    expect(name, "fenced words", given_back(words, WORD, &row->words), 1);
    expect(name, "fenced scratch", given_back(scratch, STATE, &row->scratch), 1);
    expect(name, "fenced run", given_back(run, STATE, &row->run), 1);
}

static void judge_rows_fenced(void)
{
    for (size_t i = 0; i < sizeof examples / sizeof examples[0]; i++) {
        judge_fenced(&examples[i], AT_START);
        judge_fenced(&examples[i], AT_END);
    }
}

/* Runs of no states: 14. */
static void runs_of_no_states(void)
{
    static const struct sheet *const sheets[] = {&w1, &w2, &w3, &w4, &w5, &w6, &w15};
    for (size_t i = 0; i < sizeof sheets / sizeof sheets[0]; i++) {
        expect(sheets[i]->name, "a run of no states", naxxurbi_check_run(sheets[i]->bytes, sheets[i]->len, NULL, 0, 0), NOT_ACCEPTED);
    }
}

/*
 * W7 to W14 claim lawful and first states. Without step rules every lawful state moves to every lawful state, so a paper of the one state s
 * is accepted exactly if s is a first state, and a paper of a first state and then s exactly if s is lawful.
 */
struct states {
    const struct sheet *sheet;
    uint32_t letters;
    size_t lawful_count;
    naxxurbi_state lawful[MOST];
    size_t first_count;
    naxxurbi_state first[MOST];
};

static const struct states claims[] = {
    {&w7, 2, 2, {1, 2}, 2, {1, 2}},
    {&w8, 2, 3, {0, 1, 2}, 3, {0, 1, 2}},
    {&w9, 2, 3, {1, 2, 3}, 3, {1, 2, 3}},
    {&w10, 2, 4, {0, 1, 2, 3}, 4, {0, 1, 2, 3}},
    {&w11, 2, 0, {0}, 0, {0}},
    {&w12, 2, 4, {0, 1, 2, 3}, 4, {0, 1, 2, 3}},
    {&w13, 4, 4, {1, 2, 4, 8}, 2, {1, 2}},
    {&w14, 4, 3, {6, 10, 13}, 3, {6, 10, 13}},
};

static uint32_t is_among(naxxurbi_state state, const naxxurbi_state *states, size_t count)
{
    for (size_t i = 0; i < count; i++) {
        if (states[i] == state) {
            return ACCEPTED;
        }
    }
    return NOT_ACCEPTED;
}

static void lawful_and_first(void)
{
    uint8_t paper[2 * NAXXURBI_STATE_BYTES];
    for (size_t i = 0; i < sizeof claims / sizeof claims[0]; i++) {
        const struct states *row = &claims[i];
        for (naxxurbi_state state = 0; state <= (naxxurbi_state)1 << row->letters; state++) {
            naxxurbi_state two[2] = {row->first_count > 0 ? row->first[0] : 0, state};
            size_t len = write_states(paper, &state, 1);
            expect(row->sheet->name, "is it a first state", naxxurbi_check_run(row->sheet->bytes, row->sheet->len, paper, len, 0),
                   is_among(state, row->first, row->first_count));
            len = write_states(paper, two, 2);
            expect(row->sheet->name, "is it lawful", naxxurbi_check_run(row->sheet->bytes, row->sheet->len, paper, len, 1),
                   is_among(state, row->lawful, row->lawful_count));
        }
    }
}

/* The judge's table says the same: without step rules every lawful state is livable. */
static void livable(void)
{
    naxxurbi_state table[LENT], scratch[LENT], run[LENT];
    uint32_t words[LENT], out[NUMBERS];
    for (size_t i = 0; i < sizeof claims / sizeof claims[0]; i++) {
        const struct states *row = &claims[i];
        size_t count = row->lawful_count;
        fill_states(table);
        naxxurbi_judge(row->sheet->bytes, row->sheet->len, table, LENT, words, LENT, scratch, LENT, run, LENT, out);
        expect(row->sheet->name, "answer", out[0], count > 0 ? NAXXURBI_OK : NAXXURBI_CANNOT_BE_KEPT);
        expect(row->sheet->name, "count", out[1], (uint32_t)count);
        expect(row->sheet->name, "place", out[4], 0);
        expect(row->sheet->name, "table", memcmp(table, row->lawful, count * sizeof table[0]) == 0, 1);
        if (count > 0) {
            expect(row->sheet->name, "the run's first state", run[0] == row->first[0], 1);
        }
    }
}

int main(void)
{
    judge_rows();
    judge_rows_fenced();
    runs_of_no_states();
    lawful_and_first();
    livable();
    return report();
}
