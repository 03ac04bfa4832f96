/*
 * Which rules fight: the check of a proposal and the planner from C. Every number that they can return, on sheets small enough to reckon by
 * hand; what the lent slices hold then; the marks, which are written on every answer. Every call is made on fenced copies too (fence.h), and
 * does the same.
 */
#define _DEFAULT_SOURCE
#include <string.h>

#include "naxxurbi.h"
#include "fence.h"
#include "make.h"
#include "test.h"

enum { TABLE, WORDS, SCRATCH, SLICES };
enum { KEPT = NAXXURBI_SHORT_RUN, CROWDED = NAXXURBI_TRIAL_TOO_LARGE, ROOM = 512, MARKS = NAXXURBI_RULES, NO_MARK = 0xAA, OLD = 0xDE };

/* Two letters, the first at first. Rule 1: it holds always. 2: the second letter stays. 3: the first ends. Rules 1 and 3 fight. */
SHEET(two_of_three, "two of three rules", 0x01, 0x00, 0x15, 0x02, 0x00, 0x01, 0x03, 0x00, 0x01, 0x01,
      0x02, 0x00, 0x01, 0x03, 0x01, 0x02, 0x02, 0x03, 0x01, 0x01, 0xFF);
/* One letter, which does not hold at first. Rule 1: it never holds. 2: nothing may follow. */
SHEET(second_alone, "the second of two rules", 0x01, 0x00, 0x0F, 0x01, 0x00, 0x01, 0x02, 0x00, 0x01, 0xFF, 0x02, 0x00, 0xFF, 0x01, 0x00);
/* The same rules, the other way round. */
SHEET(first_alone, "the first of two rules", 0x01, 0x00, 0x0F, 0x01, 0x00, 0x01, 0x02, 0x00, 0x01, 0xFF, 0x01, 0x00, 0x02, 0x00, 0xFF);
/* One letter, which does not hold at first. Rule 1 asks for nothing. 2: nothing may follow. */
SHEET(spare_first, "a spare rule first", 0x01, 0x00, 0x10, 0x01, 0x00, 0x01, 0x02, 0x00, 0x01, 0xFF, 0x03, 0x00, 0xFF, 0x01, 0x01, 0x00);
/* Two letters. Rules 1 and 4 ask for the first and for its opposite, 2 and 3 for the second and for its opposite. */
SHEET(two_fights, "two fights", 0x01, 0x00, 0x14, 0x02, 0x00, 0x00, 0x04, 0x00,
      0x02, 0x00, 0x01, 0x02, 0x00, 0x02, 0x02, 0x00, 0xFE, 0x02, 0x00, 0xFF);

/* One sheet for each of the faults 1 to 10. */
SHEET(bad1, "bad 1", 0x01, 0x00, 0x07, 0x01, 0x00, 0x00, 0x00);
SHEET(bad2, "bad 2", 0x02, 0x00, 0x08, 0x01, 0x00, 0x00, 0x00, 0x00);
SHEET(bad3, "bad 3", 0x01, 0x00, 0x09, 0x01, 0x00, 0x00, 0x00, 0x00);
SHEET(bad4, "bad 4", 0x01, 0x00, 0x08, 0x19, 0x00, 0x00, 0x00, 0x00);
SHEET(bad5, "bad 5", 0x01, 0x00, 0x08, 0x01, 0x21, 0x00, 0x00, 0x00);
SHEET(bad6, "bad 6", 0x01, 0x00, 0x0A, 0x01, 0x00, 0x00, 0x02, 0x00, 0x01, 0x00);
SHEET(bad7, "bad 7", 0x01, 0x00, 0x09, 0x01, 0x00, 0x00, 0x01, 0x00, 0x00);
SHEET(bad8, "bad 8", 0x01, 0x00, 0x0B, 0x01, 0x00, 0x00, 0x01, 0x00, 0x02, 0x01, 0x00);
SHEET(bad9, "bad 9", 0x01, 0x00, 0x0C, 0x02, 0x00, 0x00, 0x01, 0x00, 0x03, 0x02, 0x02, 0x01);
SHEET(bad10, "bad 10", 0x01, 0x00, 0x0B, 0x01, 0x00, 0x00, 0x01, 0x00, 0x01, 0x00, 0x00);

static const struct sheet *const BAD[] = {&bad1, &bad2, &bad3, &bad4, &bad5, &bad6, &bad7, &bad8, &bad9, &bad10};

/* What a call left in the slices. */
enum left { UNTOUCHED, ZEROS, NEITHER };

/* What is lent, how many bytes a number of each slice takes, and how many numbers it has. */
static naxxurbi_state table[ROOM + 1], scratch[2 * (ROOM + 1)];
static uint32_t words[ROOM + 1];
static void *const lent[SLICES] = {table, words, scratch};
static const size_t widths[SLICES] = {sizeof table[0], sizeof words[0], sizeof scratch[0]};
static size_t sizes[SLICES];
static uint8_t marks[MARKS];

#define RULES(...) (const uint32_t[]){__VA_ARGS__}, sizeof((const uint32_t[]){__VA_ARGS__}) / sizeof(uint32_t)
#define NO_RULES NULL, 0

/* Lends room for so many states, and a place or two that make no difference. */
static void lend(size_t states)
{
    sizes[TABLE] = states;
    sizes[WORDS] = states + 1;
    sizes[SCRATCH] = 2 * states + 1;
    for (size_t i = 0; i < SLICES; i++) {
        memset(lent[i], OLD, sizes[i] * widths[i]);
    }
    memset(marks, NO_MARK, sizeof marks);
}

static enum left left(void)
{
    size_t old = 0, zero = 0, all = 0;
    for (size_t i = 0; i < SLICES; i++) {
        const uint8_t *bytes = lent[i];
        for (size_t j = 0; j < sizes[i] * widths[i]; j++) {
            old += bytes[j] == OLD;
            zero += bytes[j] == 0;
        }
        all += sizes[i] * widths[i];
    }
    return old == all ? UNTOUCHED : zero == all ? ZEROS : NEITHER;
}

static void *numbers(struct fenced copy)
{
    return copy.at;
}

/* Fenced copies of the sheet, the rules, the slices and the marks, as they are now. */
struct copies {
    struct fenced sheet, rules, slices[SLICES], marks;
};

static struct copies copy_all(struct sheet sheet, const uint32_t *rules, size_t count, enum place place)
{
    struct copies copies;
    copies.sheet = fence_to_read(sheet.bytes, sheet.len, place);
    copies.rules = fence_to_read(rules, count * sizeof rules[0], place);
    for (size_t i = 0; i < SLICES; i++) {
        copies.slices[i] = fence(lent[i], sizes[i] * widths[i], place);
    }
    copies.marks = fence(marks, sizeof marks, place);
    return copies;
}

/* Takes the copies down; whether they hold what was left without fences, and nothing around them was touched. */
static int as_without_fences(struct copies copies)
{
    int same = memcmp(copies.marks.at, marks, sizeof marks) == 0;
    for (size_t i = 0; i < SLICES; i++) {
        same = same && (sizes[i] == 0 || memcmp(copies.slices[i].at, lent[i], copies.slices[i].len) == 0);
        same = unfence(copies.slices[i]) && same;
    }
    same = unfence(copies.marks) && same;
    unfence(copies.sheet);
    unfence(copies.rules);
    return same;
}

/* Checks a proposal with room for so many states: here and on two fenced copies. The marks are no part of it. */
static uint32_t check(struct sheet sheet, size_t states, const uint32_t *rules, size_t count)
{
    struct copies copies[PLACES];
    uint32_t answer;
    lend(states);
    for (enum place place = AT_START; place < PLACES; place++) {
        copies[place] = copy_all(sheet, rules, count, place);
    }
    answer = naxxurbi_check_clash(sheet.bytes, sheet.len, rules, count, table, sizes[TABLE], words, sizes[WORDS], scratch, sizes[SCRATCH]);
    for (enum place place = AT_START; place < PLACES; place++) {
        const struct copies *c = &copies[place];
        uint32_t fenced = naxxurbi_check_clash(c->sheet.at, c->sheet.len, numbers(c->rules), count, numbers(c->slices[TABLE]), sizes[TABLE],
                                               numbers(c->slices[WORDS]), sizes[WORDS], numbers(c->slices[SCRATCH]), sizes[SCRATCH]);
        if (!as_without_fences(*c) || fenced != answer) {
            expect(sheet.name, "checked on fenced copies", 0, 1);
        }
    }
    return answer;
}

/* Plans with room for so many states: here and on two fenced copies. */
static uint32_t plan(struct sheet sheet, size_t states)
{
    struct copies copies[PLACES];
    uint32_t answer;
    lend(states);
    for (enum place place = AT_START; place < PLACES; place++) {
        copies[place] = copy_all(sheet, NULL, 0, place);
    }
    answer = naxxurbi_clash(sheet.bytes, sheet.len, table, sizes[TABLE], words, sizes[WORDS], scratch, sizes[SCRATCH], marks);
    for (enum place place = AT_START; place < PLACES; place++) {
        const struct copies *c = &copies[place];
        uint32_t fenced = naxxurbi_clash(c->sheet.at, c->sheet.len, numbers(c->slices[TABLE]), sizes[TABLE], numbers(c->slices[WORDS]),
                                         sizes[WORDS], numbers(c->slices[SCRATCH]), sizes[SCRATCH], c->marks.at);
        if (!as_without_fences(*c) || fenced != answer) {
            expect(sheet.name, "planned on fenced copies", 0, 1);
        }
    }
    return answer;
}

/* One test: the check's answer, and what it leaves. */
static void checked(struct sheet sheet, const char *what, size_t states, const uint32_t *rules, size_t count, uint32_t answer, enum left wanted)
{
    expect(sheet.name, what, check(sheet, states, rules, count), answer);
    expect(sheet.name, what, left(), wanted);
}

/* One test: the planner's answer, the rules that it marks and no other, and what it leaves. */
static void planned(struct sheet sheet, const char *what, size_t states, uint32_t answer, const uint32_t *rules, size_t count, enum left wanted)
{
    uint8_t wanted_marks[MARKS] = {0};
    for (size_t i = 0; i < count; i++) {
        wanted_marks[rules[i] - 1] = 1;
    }
    expect(sheet.name, what, plan(sheet, states), answer);
    expect(sheet.name, "the marks", memcmp(marks, wanted_marks, sizeof marks) == 0, 1);
    expect(sheet.name, what, left(), wanted);
}

/* One test: the planner chooses these rules, and the check accepts them. */
static void fight(struct sheet sheet, const char *what, size_t states, const uint32_t *rules, size_t count)
{
    planned(sheet, what, states, 0, rules, count, ZEROS);
    checked(sheet, what, states, rules, count, ACCEPTED, ZEROS);
}

static void fights(void)
{
    fight(two_of_three, "rules 1 and 3", 4, RULES(1, 3));
    fight(second_alone, "rule 2", 2, RULES(2));
    fight(first_alone, "rule 1", 2, RULES(1));
    fight(two_fights, "the one that is left when dropping from the last", 4, RULES(2, 3));
    checked(two_fights, "the other one", 4, RULES(1, 4), ACCEPTED, ZEROS);
    fight(w4, "both rules", 2, RULES(1, 2));
    fight(w5, "its rule", 2, RULES(1));
    fight(w15, "the three robots that work first", ROOM, RULES(1, 2, 3));
    fight(w6, "no rule", 0, NO_RULES);
    fight(w6, "no rule, some room", 3, NO_RULES);
}

static void not_accepted(void)
{
    checked(two_of_three, "one can be spared", 4, RULES(1, 2, 3), NOT_ACCEPTED, ZEROS);
    checked(two_of_three, "no rule", 4, NO_RULES, NOT_ACCEPTED, ZEROS);
    checked(two_of_three, "can be kept", 4, RULES(1), NOT_ACCEPTED, ZEROS);
    checked(two_of_three, "can be kept", 4, RULES(2, 3), NOT_ACCEPTED, ZEROS);
    checked(two_fights, "two fights at once", 4, RULES(1, 2, 3, 4), NOT_ACCEPTED, ZEROS);
    checked(w1, "no rule", 2, NO_RULES, NOT_ACCEPTED, ZEROS);
    checked(w5, "no rule", 2, NO_RULES, NOT_ACCEPTED, ZEROS);
}

/* 14 before 17, so also with no room. */
static void bad_numbers(struct sheet sheet, const char *what, const uint32_t *rules, size_t count)
{
    checked(sheet, what, 4, rules, count, NOT_ACCEPTED, UNTOUCHED);
    checked(sheet, what, 0, rules, count, NOT_ACCEPTED, UNTOUCHED);
}

static void misnumbered(void)
{
    bad_numbers(two_of_three, "rule 0", RULES(0));
    bad_numbers(two_of_three, "rule 0 before others", RULES(0, 1, 3));
    bad_numbers(two_of_three, "rule 4 of 3", RULES(4));
    bad_numbers(two_of_three, "rule 4 of 3 after others", RULES(1, 3, 4));
    bad_numbers(two_of_three, "the greatest number", RULES(1, UINT32_MAX));
    bad_numbers(two_of_three, "a number that is 1 in its low byte", RULES(0x101));
    bad_numbers(two_of_three, "equal numbers", RULES(1, 1));
    bad_numbers(two_of_three, "equal numbers at the end", RULES(1, 3, 3));
    bad_numbers(two_of_three, "falling numbers", RULES(3, 1));
    bad_numbers(two_of_three, "a number that falls back", RULES(1, 3, 2));
    bad_numbers(w1, "a rule of a sheet that has none", RULES(1));
}

static void crowded(void)
{
    planned(two_of_three, "no room for the whole sheet", 1, CROWDED, NO_RULES, ZEROS);
    planned(two_of_three, "no room at all", 0, CROWDED, NO_RULES, ZEROS);
    planned(two_of_three, "no room once rule 1 is dropped", 3, CROWDED, NO_RULES, ZEROS);
    planned(first_alone, "no room once both are dropped", 1, CROWDED, NO_RULES, ZEROS);
    planned(second_alone, "no room in the last pass", 1, CROWDED, NO_RULES, ZEROS);
    planned(w1, "no room, and it can be kept", 1, CROWDED, NO_RULES, ZEROS);
    checked(two_of_three, "no room without rule 1", 3, RULES(1, 3), CROWDED, ZEROS);
    checked(two_of_three, "no room without rule 1, and one can be spared", 3, RULES(1, 2, 3), CROWDED, ZEROS);
    checked(spare_first, "no room without rule 2, told after rule 1 could be spared", 1, RULES(1, 2), CROWDED, ZEROS);
    checked(spare_first, "rule 1 could be spared", 2, RULES(1, 2), NOT_ACCEPTED, ZEROS);
    checked(two_of_three, "no room without rule 1, and can be kept", 3, RULES(1, 2), CROWDED, ZEROS);
    checked(two_of_three, "no room for the chosen rules", 3, RULES(3), CROWDED, ZEROS);
    checked(second_alone, "no room with no rule", 1, RULES(2), CROWDED, ZEROS);
    checked(w1, "no room with no rule", 1, NO_RULES, CROWDED, ZEROS);
}

static void kept(void)
{
    planned(w1, "can be kept", 2, KEPT, NO_RULES, ZEROS);
    planned(w2, "can be kept", 2, KEPT, NO_RULES, ZEROS);
    planned(w3, "can be kept", 2, KEPT, NO_RULES, ZEROS);
    make_wheels(1);
    planned((struct sheet){"wheels", made, made_len}, "can be kept", ROOM, KEPT, NO_RULES, ZEROS);
}

static void bad_sheets(void)
{
    for (uint32_t i = 0; i < sizeof BAD / sizeof BAD[0]; i++) {
        planned(*BAD[i], "a bad sheet", 2, i + 1, NO_RULES, UNTOUCHED);
        checked(*BAD[i], "a bad sheet", 2, RULES(1), i + 1, UNTOUCHED);
        checked(*BAD[i], "a bad sheet before bad numbers", 2, RULES(2, 1), i + 1, UNTOUCHED);
    }
}

/* A chain of 24 letters with no way on from the last, said over and over in 255 rules: the first 24 of them fight, each needed. */
static void all_marks(void)
{
    uint32_t rules[ALL_LETTERS + 1];
    struct sheet chain;
    make_ring(0);
    chain = (struct sheet){"chain", made, made_len};
    for (uint32_t i = 0; i <= ALL_LETTERS; i++) {
        rules[i] = i + 1;
    }
    fight(chain, "24 of 255 rules", ALL_LETTERS, rules, ALL_LETTERS);
    checked(chain, "one that is said again", ALL_LETTERS, rules, ALL_LETTERS + 1, NOT_ACCEPTED, ZEROS);
    checked(chain, "one too few", ALL_LETTERS, rules, ALL_LETTERS - 1, NOT_ACCEPTED, ZEROS);
    /* Rule 255 is rule 15 again: 240 is a multiple of 24. */
    memmove(rules + 14, rules + 15, (ALL_LETTERS - 15) * sizeof rules[0]);
    rules[ALL_LETTERS - 1] = MARKS;
    checked(chain, "the last rule in the place of the 15th", ALL_LETTERS, rules, ALL_LETTERS, ACCEPTED, ZEROS);
    rules[ALL_LETTERS - 1] = MARKS + 1;
    checked(chain, "rule 256", ALL_LETTERS, rules, ALL_LETTERS, NOT_ACCEPTED, UNTOUCHED);
}

/* One letter and 255 step rules that ask for nothing, but for one: after it nothing may follow. */
static void make_one_dead(uint32_t dead)
{
    begin(1, 0, 0, MARKS, 0);
    for (uint32_t rule = 1; rule <= MARKS; rule++) {
        byte(rule == dead ? 1 : 3);
        byte(0);
        if (rule != dead) {
            byte(0xFF);
            byte(1);
        }
    }
    end(0);
}

/* The first of 255 rules and the last, each alone at odds, and each one that can be spared beside the other. */
static void first_and_last(void)
{
    struct sheet sheet;
    make_one_dead(1);
    sheet = (struct sheet){"the first of 255 rules", made, made_len};
    fight(sheet, "alone", 2, RULES(1));
    checked(sheet, "the last can be spared", 2, RULES(1, MARKS), NOT_ACCEPTED, ZEROS);
    checked(sheet, "rule 256", 2, RULES(1, MARKS + 1), NOT_ACCEPTED, UNTOUCHED);
    make_one_dead(MARKS);
    sheet = (struct sheet){"the last of 255 rules", made, made_len};
    fight(sheet, "alone", 2, RULES(MARKS));
    checked(sheet, "the first can be spared", 2, RULES(1, MARKS), NOT_ACCEPTED, ZEROS);
    checked(sheet, "can be kept", 2, RULES(1), NOT_ACCEPTED, ZEROS);
}

int main(void)
{
    fights();
    not_accepted();
    misnumbered();
    crowded();
    kept();
    bad_sheets();
    all_marks();
    first_and_last();
    return report();
}
