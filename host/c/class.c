/*
 * The whole class in one call: a class of 32 sheets in which every answer from 0 to 13 occurs, against 32 calls of the judge with the same
 * slices, numbers and slices compared whole; and every refusal, which changes nothing.
 *
 * Slices are lent filled with bytes that no paper holds. Behind each length lies a rim of the same bytes, which nothing may touch.
 */
#include <string.h>

#include "naxxurbi.h"
#include "test.h"

enum { SHEETS = NAXXURBI_CLASS_SHEETS, EACH = NAXXURBI_CLASS_NUMBERS, RIM = 4, REFUSED = NAXXURBI_CLASS_REFUSED };
/* Room for two states and a run of two: W2 can be kept, W3's run has no room, W15 has too many states. */
enum { TABLE = 2, WORDS = 3, SCRATCH = 5, RUN = 2, NUMBERS = (SHEETS + 1) * EACH };

enum { OLD = 0xA5 };

SHEET(short_sheet, "1: seven bytes", 0x01, 0x00, 0x07, 0x01, 0x00, 0x00, 0x00);
SHEET(version, "2: version 2", 0x02, 0x00, 0x08, 0x01, 0x00, 0x00, 0x00, 0x00);
SHEET(stated, "3: another length", 0x01, 0x00, 0x09, 0x01, 0x00, 0x00, 0x00, 0x00);
SHEET(letters, "4: no letters", 0x01, 0x00, 0x08, 0x00, 0x00, 0x00, 0x00, 0x00);
SHEET(counts, "5: 33 limits", 0x01, 0x00, 0x08, 0x01, 0x21, 0x00, 0x00, 0x00);
SHEET(missing, "6: a promise is missing", 0x01, 0x00, 0x08, 0x01, 0x00, 0x00, 0x00, 0x01);
SHEET(shape, "7: a promise of two bytes", 0x01, 0x00, 0x0B, 0x01, 0x00, 0x00, 0x00, 0x01, 0x02, 0x01, 0x01);
SHEET(zero, "8: a literal zero", 0x01, 0x00, 0x0A, 0x01, 0x00, 0x00, 0x00, 0x01, 0x01, 0x00);
SHEET(twice, "9: a literal twice", 0x01, 0x00, 0x0D, 0x01, 0x01, 0x00, 0x00, 0x00, 0x04, 0x01, 0x01, 0x01, 0x01);
SHEET(surplus, "10: a byte left over", 0x01, 0x00, 0x09, 0x01, 0x00, 0x00, 0x00, 0x00, 0x00);
static const struct sheet empty = {"an empty sheet", w1_bytes, 0};

/* 32 sheets: kept, cannot be kept, crowded, short of run and bad ones side by side, an empty one at either end and two in a row. */
static const struct sheet *const class_of_32[SHEETS] = {
    &empty, &w1, &w2, &w4, &version, &w15, &w3, &stated, &w5, &letters, &w6, &counts, &w2, &missing, &empty, &empty,
    &w1, &shape, &zero, &w4, &twice, &surplus, &short_sheet, &w3, &w2, &w15, &version, &w5, &w2, &twice, &w4, &empty,
};

/* What is lent, each slice with its rim. */
struct desk {
    naxxurbi_state table[TABLE + RIM];
    uint32_t words[WORDS + RIM];
    naxxurbi_state scratch[SCRATCH + RIM];
    naxxurbi_state run[RUN + RIM];
    uint32_t numbers[NUMBERS + RIM];
};

/* Some sheets joined, and where each ends. */
struct joined {
    uint8_t bytes[NAXXURBI_BYTES];
    size_t len;
    uint32_t ends[SHEETS + 1];
};

static void lend(struct desk *desk)
{
    memset(desk, OLD, sizeof *desk);
}

static void join(struct joined *all, const struct sheet *const *sheets, size_t count)
{
    all->len = 0;
    for (size_t i = 0; i < count; i++) {
        memcpy(all->bytes + all->len, sheets[i]->bytes, sheets[i]->len);
        all->len += sheets[i]->len;
        all->ends[i] = (uint32_t)all->len;
    }
}

static uint32_t judge_class(const struct joined *all, size_t count, struct desk *desk, size_t room)
{
    return naxxurbi_judge_class(all->bytes, all->len, all->ends, count, desk->table, TABLE, desk->words, WORDS, desk->scratch, SCRATCH,
                                desk->run, RUN, desk->numbers, room);
}

/* The same by single calls, one for each sheet. */
static void judge_each(const struct sheet *const *sheets, size_t count, struct desk *desk)
{
    for (size_t i = 0; i < count; i++) {
        uint32_t out[NAXXURBI_NUMBERS];
        naxxurbi_judge(sheets[i]->bytes, sheets[i]->len, desk->table, TABLE, desk->words, WORDS, desk->scratch, SCRATCH, desk->run, RUN, out);
        memcpy(desk->numbers + EACH * i, out, EACH * sizeof out[0]);
    }
}

static void compare(const char *name, const struct desk *got, const struct desk *wanted)
{
    expect(name, "table", memcmp(got->table, wanted->table, sizeof got->table) == 0, 1);
    expect(name, "words", memcmp(got->words, wanted->words, sizeof got->words) == 0, 1);
    expect(name, "scratch", memcmp(got->scratch, wanted->scratch, sizeof got->scratch) == 0, 1);
    expect(name, "run", memcmp(got->run, wanted->run, sizeof got->run) == 0, 1);
    expect(name, "numbers", memcmp(got->numbers, wanted->numbers, sizeof got->numbers) == 0, 1);
}

/* The first `count` sheets of the class of 32, for every count. */
static void in_turn(void)
{
    struct joined all;
    struct desk got, wanted;
    for (size_t count = 0; count <= SHEETS; count++) {
        join(&all, class_of_32, count);
        lend(&got);
        lend(&wanted);
        expect("the class", "its answer", judge_class(&all, count, &got, NUMBERS), 0);
        judge_each(class_of_32, count, &wanted);
        compare("the class", &got, &wanted);
        /* Exactly four places a sheet are room enough. */
        lend(&got);
        expect("the class", "four places a sheet", judge_class(&all, count, &got, EACH * count), 0);
        compare("four places a sheet", &got, &wanted);
    }
}

/* Every answer from 0 to 13 occurs among the 32, and the sheets named for a fault have it. */
static void every_answer(void)
{
    struct joined all;
    struct desk desk;
    lend(&desk);
    join(&all, class_of_32, SHEETS);
    judge_class(&all, SHEETS, &desk, NUMBERS);
    for (uint32_t answer = 0; answer <= NAXXURBI_CANNOT_BE_KEPT; answer++) {
        uint32_t seen = 0;
        for (size_t i = 0; i < SHEETS; i++) {
            seen += desk.numbers[EACH * i] == answer;
        }
        expect("the class", "an answer that never occurs", seen > 0, 1);
    }
    expect("an empty sheet", "its answer", desk.numbers[0], NAXXURBI_BAD_SIZE);
    expect("W2", "its answer", desk.numbers[EACH * 2], 0);
    expect("W4", "its answer", desk.numbers[EACH * 3], NAXXURBI_CANNOT_BE_KEPT);
    expect("W15", "its answer", desk.numbers[EACH * 5], NAXXURBI_TOO_MANY_STATES);
    expect("W3", "its answer", desk.numbers[EACH * 6], NAXXURBI_SHORT_RUN);
    expect("W3", "its b", desk.numbers[EACH * 6 + NAXXURBI_B], 3);
}

/* What a sheet gets alone, with slices that hold something else, is what it gets in the class. */
static void alone(void)
{
    struct joined all;
    struct desk desk, single;
    lend(&desk);
    join(&all, class_of_32, SHEETS);
    judge_class(&all, SHEETS, &desk, NUMBERS);
    for (size_t i = 0; i < SHEETS; i++) {
        lend(&single);
        judge_each(&class_of_32[i], 1, &single);
        expect(class_of_32[i]->name, "alone", memcmp(single.numbers, desk.numbers + EACH * i, EACH * sizeof single.numbers[0]) == 0, 1);
    }
}

/* 16, and nothing is changed. */
static void refused(const char *what, const struct joined *all, size_t count, size_t room)
{
    struct desk got, untouched;
    lend(&got);
    lend(&untouched);
    expect(what, "its answer", judge_class(all, count, &got, room), REFUSED);
    compare(what, &got, &untouched);
}

static void refusals(void)
{
    static const struct sheet *const three[] = {&w2, &w4, &w1};
    struct joined all;

    join(&all, three, 3);
    all.ends[1] = all.ends[0] - 1;
    refused("an end that falls", &all, 3, NUMBERS);
    join(&all, three, 3);
    all.ends[1] = (uint32_t)all.len + 1;
    refused("an end past the input", &all, 3, NUMBERS);
    join(&all, three, 3);
    all.ends[2] += 1;
    refused("a last end past the input", &all, 3, NUMBERS);
    join(&all, three, 3);
    all.ends[2] -= 1;
    refused("a last end before the input's", &all, 3, NUMBERS);
    join(&all, three, 3);
    refused("some of the input left over", &all, 2, NUMBERS);
    refused("no ends with some input", &all, 0, NUMBERS);
    refused("a slice one short", &all, 3, 3 * EACH - 1);
    refused("no slice", &all, 3, 0);
    all.ends[2] = UINT32_MAX;
    refused("the greatest end", &all, 3, NUMBERS);

    /* 33 sheets, the last empty, with room for the numbers of 33. */
    join(&all, class_of_32, SHEETS);
    all.ends[SHEETS] = (uint32_t)all.len;
    refused("33 sheets", &all, SHEETS + 1, NUMBERS);
}

/* No ends and no input, and no slices either. */
static void nobody(void)
{
    expect("no sheets", "their answer", naxxurbi_judge_class(NULL, 0, NULL, 0, NULL, 0, NULL, 0, NULL, 0, NULL, 0, NULL, 0), 0);
}

int main(void)
{
    in_turn();
    every_answer();
    alone();
    refusals();
    nobody();
    return report();
}
