/*
 * The two checkers as firmware calls them: the wall's papers W1 to W6 and W15, right, and damaged in every way.
 *
 * A row is a sheet, a paper and the number document 01 gives. Some damage leaves a paper that is right as well; then the row says so. Every
 * call is made three times: on the row's own bytes, and on copies that may only be read, fenced directly before and directly behind.
 */
#define _DEFAULT_SOURCE
#include <string.h>

#include "naxxurbi.h"
#include "fence.h"
#include "test.h"

enum { MOST = 6 };

/* W4 without its promise: state 1 falls to 0 and stays there. It can be kept. */
SHEET(falls, "W4 without its promise", 0x01, 0x00, 0x12, 0x01, 0x00, 0x01, 0x02, 0x00, 0x01, 0x01, 0x03, 0x01, 0x01, 0xFF, 0x03, 0x01,
      0xFF, 0xFF);
/* W4 with another version. */
SHEET(bad, "a bad sheet", 0x02, 0x00, 0x14, 0x01, 0x00, 0x01, 0x02, 0x01, 0x01, 0x01, 0x03, 0x01, 0x01, 0xFF, 0x03, 0x01, 0xFF, 0xFF, 0x01,
      0x01);

struct run {
    const struct sheet *sheet;
    const char *what;
    size_t count;
    naxxurbi_state states[MOST];
    uint32_t a;
    uint32_t answer;
};

static const struct run runs[] = {
    {&w1, "the wall's run", 1, {0}, 0, ACCEPTED},
    {&w1, "another state is right as well", 1, {1}, 0, ACCEPTED},
    {&w1, "a foreign state", 1, {2}, 0, NOT_ACCEPTED},
    {&w1, "the greatest number for a state", 1, {UINT32_MAX}, 0, NOT_ACCEPTED},
    {&w1, "a foreign state after a right one", 2, {0, 2}, 0, NOT_ACCEPTED},
    {&w1, "a state repeated, which is right", 2, {0, 0}, 1, ACCEPTED},
    {&w1, "a too large", 1, {0}, 1, NOT_ACCEPTED},
    {&w1, "a as large as can be", 1, {0}, UINT32_MAX, NOT_ACCEPTED},
    {&w1, "no states", 0, {0}, 0, NOT_ACCEPTED},

    {&w2, "the wall's run", 2, {0, 1}, 1, ACCEPTED},
    {&w2, "a wrong state", 2, {0, 0}, 1, NOT_ACCEPTED},
    {&w2, "the first state missing, which is right", 1, {1}, 0, ACCEPTED},
    {&w2, "the last state missing", 1, {0}, 0, NOT_ACCEPTED},
    {&w2, "a state repeated, which is right", 3, {0, 0, 1}, 2, ACCEPTED},
    {&w2, "a foreign state", 2, {0, 2}, 1, NOT_ACCEPTED},
    {&w2, "a foreign first state", 2, {3, 1}, 1, NOT_ACCEPTED},
    {&w2, "a foreign state whose low bits are right", 2, {0, 0x80000001}, 1, NOT_ACCEPTED},
    {&w2, "a too large", 2, {0, 1}, 2, NOT_ACCEPTED},
    {&w2, "a smaller, which is right", 2, {0, 1}, 0, ACCEPTED},
    {&w2, "the promise kept before a only", 2, {1, 0}, 1, NOT_ACCEPTED},
    {&w2, "no states", 0, {0}, 0, NOT_ACCEPTED},
    {&w2, "no states, a = 1", 0, {0}, 1, NOT_ACCEPTED},

    {&w3, "the wall's run", 3, {0, 1, 0}, 1, ACCEPTED},
    {&w3, "a wrong state: promise 1 is not kept", 3, {0, 0, 0}, 1, NOT_ACCEPTED},
    {&w3, "a wrong state: promise 2 is kept before a only", 3, {0, 1, 1}, 1, NOT_ACCEPTED},
    {&w3, "the last state missing", 2, {0, 1}, 1, NOT_ACCEPTED},
    {&w3, "the first state missing", 2, {1, 0}, 1, NOT_ACCEPTED},
    {&w3, "a state repeated, which is right", 4, {0, 1, 1, 0}, 1, ACCEPTED},
    {&w3, "a foreign state", 3, {0, 1, 2}, 1, NOT_ACCEPTED},
    {&w3, "a too large", 3, {0, 1, 0}, 2, NOT_ACCEPTED},
    {&w3, "a as large as the number of states", 3, {0, 1, 0}, 3, NOT_ACCEPTED},
    {&w3, "a smaller, which is right", 3, {0, 1, 0}, 0, ACCEPTED},
    {&w3, "no states", 0, {0}, 0, NOT_ACCEPTED},

    {&w4, "round for ever, the promise broken", 2, {1, 0}, 1, NOT_ACCEPTED},
    {&w4, "the promise kept before a only", 3, {1, 0, 0}, 2, NOT_ACCEPTED},
    {&w4, "back to a state that is no next one", 2, {1, 0}, 0, NOT_ACCEPTED},
    {&w4, "a state that does not follow itself", 1, {1}, 0, NOT_ACCEPTED},
    {&w4, "no first state", 1, {0}, 0, NOT_ACCEPTED},
    {&w4, "a foreign state", 2, {1, 2}, 1, NOT_ACCEPTED},
    {&w4, "no states", 0, {0}, 0, NOT_ACCEPTED},

    {&falls, "a right run", 2, {1, 0}, 1, ACCEPTED},
    {&falls, "a wrong state", 2, {1, 1}, 1, NOT_ACCEPTED},
    {&falls, "a wrong first state", 2, {0, 0}, 1, NOT_ACCEPTED},
    {&falls, "the first state missing", 1, {0}, 0, NOT_ACCEPTED},
    {&falls, "the last state missing", 1, {1}, 0, NOT_ACCEPTED},
    {&falls, "the last state repeated, which is right", 3, {1, 0, 0}, 2, ACCEPTED},
    {&falls, "the first state repeated", 3, {1, 1, 0}, 2, NOT_ACCEPTED},
    {&falls, "a later move that is none", 4, {1, 0, 0, 1}, 1, NOT_ACCEPTED},
    {&falls, "a foreign state", 2, {1, 2}, 1, NOT_ACCEPTED},
    {&falls, "a too large", 2, {1, 0}, 2, NOT_ACCEPTED},
    {&falls, "a too small", 2, {1, 0}, 0, NOT_ACCEPTED},
    {&falls, "no states", 0, {0}, 0, NOT_ACCEPTED},

    {&w5, "an empty right side asks for what cannot be", 1, {0}, 0, NOT_ACCEPTED},
    {&w5, "two states", 2, {0, 1}, 0, NOT_ACCEPTED},
    {&w5, "a foreign state", 1, {2}, 0, NOT_ACCEPTED},
    {&w5, "no states", 0, {0}, 0, NOT_ACCEPTED},

    {&w6, "no state is lawful", 1, {0}, 0, NOT_ACCEPTED},
    {&w6, "no state is lawful", 1, {1}, 0, NOT_ACCEPTED},
    {&w6, "no states", 0, {0}, 0, NOT_ACCEPTED},

    {&w15, "a first state that has no way on", 1, {775}, 0, NOT_ACCEPTED},
    {&w15, "two first states", 2, {775, 8711}, 1, NOT_ACCEPTED},
    {&w15, "a foreign state", 1, {32768}, 0, NOT_ACCEPTED},
    {&w15, "no states", 0, {0}, 0, NOT_ACCEPTED},

    {&bad, "a right run", 2, {1, 0}, 1, 2},
    {&bad, "no states", 0, {0}, 0, 2},
};

struct strikes {
    const struct sheet *sheet;
    const char *what;
    size_t count;
    naxxurbi_state states[MOST];
    size_t words_count;
    uint32_t words[MOST];
    uint32_t answer;
};

static const struct strikes lists[] = {
    {&w1, "every state: the sheet can be kept", 2, {0, 1}, 2, {32, 32}, NOT_ACCEPTED},
    {&w1, "empty", 0, {0}, 0, {0}, NOT_ACCEPTED},
    {&w2, "every state: the sheet can be kept", 2, {0, 1}, 2, {33, 64}, NOT_ACCEPTED},
    {&w2, "empty", 0, {0}, 0, {0}, NOT_ACCEPTED},
    {&w3, "every state: the sheet can be kept", 2, {0, 1}, 2, {33, 34}, NOT_ACCEPTED},
    {&w3, "empty", 0, {0}, 0, {0}, NOT_ACCEPTED},

    {&w4, "the wall's list", 2, {0, 1}, 2, {33, 64}, ACCEPTED},
    {&w4, "lower words, which are right", 2, {0, 1}, 2, {1, 32}, ACCEPTED},
    {&w4, "the highest words, which are right", 2, {0, 1}, 2, {0xFFFFFFC1, 0xFFFFFFE0}, ACCEPTED},
    {&w4, "a wrong state", 2, {1, 1}, 2, {33, 64}, NOT_ACCEPTED},
    {&w4, "a wrong state: the first state is missing", 2, {0, 0}, 2, {33, 64}, NOT_ACCEPTED},
    {&w4, "the first state missing", 1, {0}, 1, {33}, NOT_ACCEPTED},
    {&w4, "a next state missing", 1, {1}, 1, {64}, NOT_ACCEPTED},
    {&w4, "a state repeated, which is right", 3, {0, 0, 1}, 3, {33, 33, 64}, ACCEPTED},
    {&w4, "a state repeated with another right word", 3, {0, 1, 1}, 3, {33, 64, 96}, ACCEPTED},
    {&w4, "a state repeated with a wrong word", 3, {0, 1, 1}, 3, {33, 64, 65}, NOT_ACCEPTED},
    {&w4, "a state repeated, the first of its words wrong", 3, {0, 0, 1}, 3, {32, 33, 64}, NOT_ACCEPTED},
    {&w4, "a foreign state", 3, {0, 1, 2}, 3, {33, 64, 64}, NOT_ACCEPTED},
    {&w4, "a foreign state whose low bits are right", 3, {0, 1, 0x80000001}, 3, {33, 64, 64}, NOT_ACCEPTED},
    {&w4, "falling words", 2, {1, 0}, 2, {64, 33}, NOT_ACCEPTED},
    {&w4, "a last word that falls", 3, {0, 1, 1}, 3, {33, 64, 32}, NOT_ACCEPTED},
    {&w4, "a word whose remainder exceeds p", 2, {0, 1}, 2, {34, 64}, NOT_ACCEPTED},
    {&w4, "a last word whose remainder exceeds p", 2, {0, 1}, 2, {33, 95}, NOT_ACCEPTED},
    {&w4, "a next state with a larger word", 2, {1, 0}, 2, {32, 33}, NOT_ACCEPTED},
    {&w4, "reason 0, a next state with the same word", 2, {0, 1}, 2, {32, 64}, NOT_ACCEPTED},
    {&w4, "reason 1, its literal true", 2, {0, 1}, 2, {33, 65}, NOT_ACCEPTED},
    {&w4, "a word missing", 2, {0, 1}, 1, {33}, NOT_ACCEPTED},
    {&w4, "a word too many", 2, {0, 1}, 3, {33, 64, 64}, NOT_ACCEPTED},
    {&w4, "empty", 0, {0}, 0, {0}, NOT_ACCEPTED},

    {&falls, "W4's list: the sheet can be kept", 2, {0, 1}, 2, {33, 64}, NOT_ACCEPTED},
    {&falls, "reason 0 alone", 2, {0, 1}, 2, {32, 64}, NOT_ACCEPTED},

    {&w5, "the wall's list", 2, {0, 1}, 2, {32, 32}, ACCEPTED},
    {&w5, "in another order, which is right", 2, {1, 0}, 2, {32, 32}, ACCEPTED},
    {&w5, "words of 0, which are right", 2, {0, 1}, 2, {0, 0}, ACCEPTED},
    {&w5, "a wrong state", 2, {0, 0}, 2, {32, 32}, NOT_ACCEPTED},
    {&w5, "a first state missing", 1, {0}, 1, {32}, NOT_ACCEPTED},
    {&w5, "the other first state missing", 1, {1}, 1, {32}, NOT_ACCEPTED},
    {&w5, "a state repeated, which is right", 3, {0, 1, 1}, 3, {32, 32, 32}, ACCEPTED},
    {&w5, "a foreign state", 3, {0, 1, 2}, 3, {32, 32, 32}, NOT_ACCEPTED},
    {&w5, "falling words", 2, {0, 1}, 2, {64, 32}, NOT_ACCEPTED},
    {&w5, "a word whose remainder exceeds p", 2, {0, 1}, 2, {32, 33}, NOT_ACCEPTED},
    {&w5, "a word missing", 2, {0, 1}, 1, {32}, NOT_ACCEPTED},
    {&w5, "a word too many", 1, {0}, 2, {32, 32}, NOT_ACCEPTED},
    {&w5, "empty", 0, {0}, 0, {0}, NOT_ACCEPTED},

    {&w6, "the wall's list, empty", 0, {0}, 0, {0}, ACCEPTED},
    {&w6, "a state that is not lawful", 1, {0}, 1, {32}, NOT_ACCEPTED},
    {&w6, "a foreign state", 1, {2}, 1, {32}, NOT_ACCEPTED},
    {&w6, "a word and no state", 0, {0}, 1, {32}, NOT_ACCEPTED},
    {&w6, "a state and no word", 1, {0}, 0, {0}, NOT_ACCEPTED},

    {&w15, "the wall's list", 4, {775, 8711, 16647, 24583}, 4, {32, 32, 32, 32}, ACCEPTED},
    {&w15, "other words, which are right", 4, {24583, 775, 16647, 8711}, 4, {0, 32, 32, 64}, ACCEPTED},
    {&w15, "a wrong state", 4, {775, 8711, 16647, 24582}, 4, {32, 32, 32, 32}, NOT_ACCEPTED},
    {&w15, "a first state missing", 3, {775, 8711, 24583}, 3, {32, 32, 32}, NOT_ACCEPTED},
    {&w15, "a state repeated, which is right", 5, {775, 775, 8711, 16647, 24583}, 5, {32, 32, 32, 32, 32}, ACCEPTED},
    {&w15, "a state repeated for another", 4, {775, 775, 8711, 16647}, 4, {32, 32, 32, 32}, NOT_ACCEPTED},
    {&w15, "a state more that is lawful, which is right", 5, {651, 775, 8711, 16647, 24583}, 5, {32, 32, 32, 32, 32}, ACCEPTED},
    {&w15, "a state more that is not lawful", 5, {0, 775, 8711, 16647, 24583}, 5, {32, 32, 32, 32, 32}, NOT_ACCEPTED},
    {&w15, "a foreign state", 5, {775, 8711, 16647, 24583, 33543}, 5, {32, 32, 32, 32, 32}, NOT_ACCEPTED},
    {&w15, "falling words", 4, {775, 8711, 16647, 24583}, 4, {32, 64, 64, 32}, NOT_ACCEPTED},
    {&w15, "a word whose remainder exceeds p", 4, {775, 8711, 16647, 24583}, 4, {32, 32, 32, 33}, NOT_ACCEPTED},
    {&w15, "a word missing", 4, {775, 8711, 16647, 24583}, 3, {32, 32, 32}, NOT_ACCEPTED},
    {&w15, "empty", 0, {0}, 0, {0}, NOT_ACCEPTED},

    {&bad, "W4's list", 2, {0, 1}, 2, {33, 64}, 2},
    {&bad, "a word missing", 2, {0, 1}, 1, {33}, 2},
    {&bad, "empty", 0, {0}, 0, {0}, 2},
};

/* What a call answers that does not always answer the same. */
enum { UNSTEADY = 99 };

static uint32_t read_sheet(const struct sheet *sheet)
{
    uint32_t answer = naxxurbi_read(sheet->bytes, sheet->len);
    for (int place = 0; place < PLACES; place++) {
        struct fenced copy = fence_to_read(sheet->bytes, sheet->len, place);
        answer = naxxurbi_read(copy.at, copy.len) == answer ? answer : UNSTEADY;
        unfence(copy);
    }
    return answer;
}

static uint32_t check_run(const struct sheet *sheet, const uint8_t *states, size_t len, uint32_t a)
{
    uint32_t answer = naxxurbi_check_run(sheet->bytes, sheet->len, states, len, a);
    for (int place = 0; place < PLACES; place++) {
        struct fenced copy = fence_to_read(sheet->bytes, sheet->len, place);
        struct fenced paper = fence_to_read(states, len, place);
        answer = naxxurbi_check_run(copy.at, copy.len, paper.at, paper.len, a) == answer ? answer : UNSTEADY;
        unfence(copy);
        unfence(paper);
    }
    return answer;
}

static uint32_t check_strikes(const struct sheet *sheet, const uint8_t *states, size_t len, const uint8_t *words, size_t words_len)
{
    uint32_t answer = naxxurbi_check_strikes(sheet->bytes, sheet->len, states, len, words, words_len);
    for (int place = 0; place < PLACES; place++) {
        struct fenced copy = fence_to_read(sheet->bytes, sheet->len, place);
        struct fenced paper = fence_to_read(states, len, place);
        struct fenced marks = fence_to_read(words, words_len, place);
        uint32_t again = naxxurbi_check_strikes(copy.at, copy.len, paper.at, paper.len, marks.at, marks.len);
        answer = again == answer ? answer : UNSTEADY;
        unfence(copy);
        unfence(paper);
        unfence(marks);
    }
    return answer;
}

static void run_rows(void)
{
    uint8_t states[4 * MOST];
    uint8_t before[4 * MOST];
    for (size_t i = 0; i < sizeof runs / sizeof runs[0]; i++) {
        const struct run *row = &runs[i];
        size_t len = write_states(states, row->states, row->count);
        memcpy(before, states, len);
        expect(row->sheet->name, row->what, check_run(row->sheet, states, len, row->a), row->answer);
        if (memcmp(before, states, len) != 0) {
            expect(row->sheet->name, "the paper is not changed", 1, 0);
        }
    }
}

static void strike_rows(void)
{
    uint8_t states[4 * MOST];
    uint8_t words[4 * MOST];
    for (size_t i = 0; i < sizeof lists / sizeof lists[0]; i++) {
        const struct strikes *row = &lists[i];
        size_t len = write_states(states, row->states, row->count);
        size_t words_len = write_words(words, row->words, row->words_count);
        expect(row->sheet->name, row->what, check_strikes(row->sheet, states, len, words, words_len), row->answer);
    }
}

/* Bytes that do not come in fours: 14, whatever they hold; a bad sheet still comes first. */
static void odd_lengths(void)
{
    static const uint8_t ones[] = {0, 0, 0, 1, 0, 0, 0, 1, 0, 0, 0, 1};
    static const uint8_t both[] = {0, 0, 0, 0, 0, 0, 0, 1, 0, 0, 0, 1};
    static const uint8_t words[] = {0, 0, 0, 32, 0, 0, 0, 32, 0, 0, 0, 32};
    for (size_t len = 1; len <= 12; len++) {
        uint32_t answer = len % 4 == 0 ? ACCEPTED : NOT_ACCEPTED;
        expect(w1.name, "a run of so many bytes", check_run(&w1, ones, len, 0), answer);
        expect(w2.name, "a run of so many bytes", check_run(&w2, ones, len, 0), answer);
        expect(bad.name, "a run of so many bytes", check_run(&bad, ones, len, 0), 2);
        expect(bad.name, "states of so many bytes", check_strikes(&bad, both, len, words, 8), 2);
        expect(w6.name, "states of so many bytes", check_strikes(&w6, both, len, words, 0), NOT_ACCEPTED);
        expect(w6.name, "words of so many bytes", check_strikes(&w6, both, 0, words, len), NOT_ACCEPTED);
        /* As many states as words, rounded down; right only if none are left over. */
        if (len >= 8) {
            size_t even = len - len % 4;
            expect(w5.name, "states of so many bytes", check_strikes(&w5, both, len, words, even), answer);
            expect(w5.name, "words of so many bytes", check_strikes(&w5, both, even, words, len), answer);
            expect(w5.name, "both of so many bytes", check_strikes(&w5, both, len, words, len), answer);
        }
    }
}

/* The highest byte of a number stands first. */
static void byte_order(void)
{
    static const uint8_t lowest_first[] = {1, 0, 0, 0};
    static const uint8_t highest_first[] = {0, 0, 0, 1};
    expect(w2.name, "the lowest byte first", check_run(&w2, lowest_first, 4, 0), NOT_ACCEPTED);
    expect(w2.name, "the highest byte first", check_run(&w2, highest_first, 4, 0), ACCEPTED);
}

/* Where a length is 0 the pointer may be null. */
static void nothing_at_all(void)
{
    expect("no sheet", "read", naxxurbi_read(NULL, 0), 1);
    expect("no sheet", "no run", naxxurbi_check_run(NULL, 0, NULL, 0, 0), 1);
    expect("no sheet", "no list", naxxurbi_check_strikes(NULL, 0, NULL, 0, NULL, 0), 1);
    expect(w1.name, "no run", check_run(&w1, NULL, 0, 0), NOT_ACCEPTED);
    expect(w1.name, "no list", check_strikes(&w1, NULL, 0, NULL, 0), NOT_ACCEPTED);
    expect(w6.name, "no list", check_strikes(&w6, NULL, 0, NULL, 0), ACCEPTED);
}

/* Every sheet here is good, but the bad one. */
static void sheets_are_good(void)
{
    static const struct sheet *const good[] = {&w1, &w2, &w3, &w4, &w5, &w6, &w15, &falls};
    for (size_t i = 0; i < sizeof good / sizeof good[0]; i++) {
        expect(good[i]->name, "read", read_sheet(good[i]), 0);
    }
    expect(bad.name, "read", read_sheet(&bad), 2);
}

int main(void)
{
    sheets_are_good();
    run_rows();
    strike_rows();
    odd_lengths();
    byte_order();
    nothing_at_all();
    return report();
}
