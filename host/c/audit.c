/*
 * The audit from C: a worked log, each breach with its moment and rule, every number that the call can return, a log cut in every way,
 * accounts that no audit made, and refusals that change nothing. Every call is made on fenced copies too (fence.h), and does the same.
 */
#define _DEFAULT_SOURCE
#include <string.h>

#include "naxxurbi.h"
#include "fence.h"
#include "make.h"
#include "test.h"

/* Where the account's numbers stand, the tallies of rule 1 first; the kinds of breach; what is too much. */
enum { COUNT = NAXXURBI_ACCOUNT_MOMENTS, LAST = NAXXURBI_ACCOUNT_LAST, WHAT = NAXXURBI_ACCOUNT_BREACH };
enum { MOMENT = NAXXURBI_ACCOUNT_BREACH_MOMENT, RULE = NAXXURBI_ACCOUNT_BREACH_RULE, NUMBERS = NAXXURBI_ACCOUNT };
enum { KEPT = NAXXURBI_ACCOUNT_KEPT + 1, BROKEN = NAXXURBI_ACCOUNT_BROKEN + 1, TALLIES = NAXXURBI_RULES };
enum { UNLAWFUL = NAXXURBI_UNLAWFUL, BROKE_FIRST = NAXXURBI_BROKE_FIRST_RULE, BROKE_STEP = NAXXURBI_BROKE_STEP_RULE };
enum { MOMENTS = NAXXURBI_MOMENTS, PAST = NAXXURBI_TOO_MANY_MOMENTS };

/* Two letters, at most one of which holds, the first at first. Rule 1: the first leads to the second. 2: back. 3: neither to the first. */
SHEET(turns, "turns", 0x01, 0x00, 0x1C, 0x02, 0x01, 0x01, 0x03, 0x00, 0x04, 0x01, 0x01, 0x01, 0x02, 0x01, 0x01, 0x03, 0x01, 0x01, 0x02, 0x03,
      0x01, 0x02, 0x01, 0x04, 0x02, 0xFE, 0xFF, 0x01);

/* One sheet for each of the faults 1 to 10. */
SHEET(bad1, "bad 1", 0x01, 0x00, 0x07, 0x01, 0x00, 0x00, 0x00);
SHEET(bad2, "bad 2", 0x02, 0x00, 0x08, 0x01, 0x00, 0x00, 0x00, 0x00);
SHEET(bad3, "bad 3", 0x01, 0x00, 0x09, 0x01, 0x00, 0x00, 0x00, 0x00);
SHEET(bad4, "bad 4", 0x01, 0x00, 0x08, 0x19, 0x00, 0x00, 0x00, 0x00);
SHEET(bad5, "bad 5", 0x01, 0x00, 0x08, 0x01, 0x21, 0x00, 0x00, 0x00);
SHEET(bad6, "bad 6", 0x01, 0x00, 0x08, 0x01, 0x00, 0x00, 0x00, 0x01);
SHEET(bad7, "bad 7", 0x01, 0x00, 0x0B, 0x01, 0x00, 0x00, 0x00, 0x01, 0x02, 0x01, 0x01);
SHEET(bad8, "bad 8", 0x01, 0x00, 0x0A, 0x01, 0x00, 0x00, 0x00, 0x01, 0x01, 0x00);
SHEET(bad9, "bad 9", 0x01, 0x00, 0x0B, 0x02, 0x00, 0x01, 0x00, 0x00, 0x02, 0x02, 0x01);
SHEET(bad10, "bad 10", 0x01, 0x00, 0x09, 0x01, 0x00, 0x00, 0x00, 0x00, 0x00);

static const struct sheet *const BAD[] = {&bad1, &bad2, &bad3, &bad4, &bad5, &bad6, &bad7, &bad8, &bad9, &bad10};

static uint32_t account[NUMBERS];
static naxxurbi_state zeros[MOMENTS + 1];

/* The same call on fenced copies: whether it answers the same, leaves the same account and touches nothing around it. */
static int the_same(struct sheet sheet, const uint32_t *before, const naxxurbi_state *states, size_t len, uint32_t wanted, enum place place)
{
    struct fenced bytes = fence_to_read(sheet.bytes, sheet.len, place), log = fence_to_read(states, len * sizeof states[0], place);
    struct fenced copy = fence(before, sizeof account, place);
    uint32_t answer = naxxurbi_audit(bytes.at, bytes.len, (uint32_t *)(void *)copy.at, (const naxxurbi_state *)(const void *)log.at, len);
    int same = answer == wanted && memcmp(copy.at, account, sizeof account) == 0;
    same = unfence(copy) && same;
    unfence(bytes);
    unfence(log);
    return same;
}

/* Audits a piece into `account`, three times: here and on two fenced copies. */
static uint32_t audit(struct sheet sheet, const naxxurbi_state *states, size_t len)
{
    uint32_t before[NUMBERS], answer;
    memcpy(before, account, sizeof account);
    answer = naxxurbi_audit(sheet.bytes, sheet.len, account, states, len);
    for (enum place place = AT_START; place < PLACES; place++) {
        if (!the_same(sheet, before, states, len, answer, place)) {
            expect(sheet.name, "the audit on fenced copies", 0, 1);
        }
    }
    return answer;
}

static void clear(void)
{
    memset(account, 0, sizeof account);
}

/* One test: the account's first five numbers, and the tallies of the three rules; every other tally is 0. */
static void accounted(const char *what, const uint32_t five[5], const uint32_t kept[3], const uint32_t broken[3])
{
    uint32_t wanted[NUMBERS] = {0}, differing = 0;
    memcpy(wanted, five, 5 * sizeof five[0]);
    memcpy(wanted + KEPT, kept, 3 * sizeof kept[0]);
    memcpy(wanted + BROKEN, broken, 3 * sizeof broken[0]);
    for (uint32_t i = 0; i < NUMBERS; i++) {
        differing += account[i] != wanted[i];
    }
    expect(turns.name, what, differing, 0);
}

#define STATES(...) (const naxxurbi_state[]){__VA_ARGS__}, sizeof((const naxxurbi_state[]){__VA_ARGS__}) / sizeof(naxxurbi_state)
#define FIVE(...) (const uint32_t[5]){__VA_ARGS__}
#define THREE(...) (const uint32_t[3]){__VA_ARGS__}

/* A log from its beginning. */
static void log_is(const char *what, const naxxurbi_state *states, size_t len, const uint32_t five[5], const uint32_t kept[3],
                   const uint32_t broken[3])
{
    clear();
    expect(turns.name, what, audit(turns, states, len), 0);
    accounted(what, five, kept, broken);
}

static void worked_logs(void)
{
    log_is("an empty log", NULL, 0, FIVE(0, 0, 0, 0, 0), THREE(0, 0, 0), THREE(0, 0, 0));
    log_is("a good log", STATES(1, 2, 1, 2), FIVE(4, 2, 0, 0, 0), THREE(2, 1, 0), THREE(0, 0, 0));
    log_is("unlawful before the first rule", STATES(3), FIVE(1, 3, UNLAWFUL, 0, 0), THREE(0, 0, 0), THREE(0, 0, 0));
    log_is("no first state", STATES(2), FIVE(1, 2, BROKE_FIRST, 0, 0), THREE(0, 0, 0), THREE(0, 0, 0));
    log_is("rule 1 broken", STATES(1, 1), FIVE(2, 1, BROKE_STEP, 1, 1), THREE(0, 0, 0), THREE(1, 0, 0));
    log_is("rule 2 broken", STATES(1, 2, 2), FIVE(3, 2, BROKE_STEP, 2, 2), THREE(1, 0, 0), THREE(0, 1, 0));
    log_is("rule 3 broken after rule 1", STATES(1, 0, 0), FIVE(3, 0, BROKE_STEP, 1, 1), THREE(0, 0, 0), THREE(1, 0, 1));
    log_is("a move out of a number above the letters", STATES(1, 4, 0), FIVE(3, 0, UNLAWFUL, 1, 0), THREE(0, 0, 0), THREE(1, 0, 1));
    /* 3 makes the left sides of both 1 and 2 true: rule 1 is kept by 2, rule 2 is broken by it */
    log_is("moves out of and into an unlawful state", STATES(1, 3, 2), FIVE(3, 2, UNLAWFUL, 1, 0), THREE(2, 0, 0), THREE(0, 1, 0));
    /* 6 is letter 2 and a bit above the letters */
    log_is("a number above the letters", STATES(1, 6, 1), FIVE(3, 1, UNLAWFUL, 1, 0), THREE(1, 1, 0), THREE(0, 0, 0));
    log_is("bits above the letters alone", STATES(1, 0xFFFFFFFC, 1), FIVE(3, 1, UNLAWFUL, 1, 0), THREE(0, 0, 1), THREE(1, 0, 0));
    log_is("unlawful is told before the rule", STATES(1, 2, 4), FIVE(3, 4, UNLAWFUL, 2, 0), THREE(1, 0, 0), THREE(0, 1, 0));
    log_is("a breach where the log stands still", STATES(1, 2, 2, 2, 2, 1), FIVE(6, 1, BROKE_STEP, 2, 2), THREE(1, 1, 0), THREE(0, 3, 0));
    log_is("standing still from the first state on", STATES(1, 1, 1), FIVE(3, 1, BROKE_STEP, 1, 1), THREE(0, 0, 0), THREE(2, 0, 0));
    log_is("standing still twice", STATES(1, 1, 0, 0, 0, 2), FIVE(6, 2, BROKE_STEP, 1, 1), THREE(0, 0, 0), THREE(2, 0, 3));
    log_is("standing still at an unlawful state", STATES(1, 6, 6, 6), FIVE(4, 6, UNLAWFUL, 1, 0), THREE(1, 0, 0), THREE(0, 2, 0));
    log_is("the first breach stays", STATES(2, 2, 3, 1, 1), FIVE(5, 1, BROKE_FIRST, 0, 0), THREE(0, 2, 0), THREE(2, 1, 0));
}

/* A log of nine states with breaches, cut in each of the 256 ways: always the whole log's account. */
static void every_cutting(void)
{
    static const naxxurbi_state states[] = {1, 2, 1, 3, 2, 2, 0, 6, 1};
    enum { LENGTH = sizeof states / sizeof states[0] };
    uint32_t whole[NUMBERS], differing = 0;
    clear();
    expect(turns.name, "the whole log", audit(turns, states, LENGTH), 0);
    memcpy(whole, account, sizeof whole);
    for (uint32_t cuts = 0; cuts < 1u << (LENGTH - 1); cuts++) {
        size_t from = 0;
        clear();
        for (size_t to = 1; to <= LENGTH; to++) {
            if (to == LENGTH || (cuts >> (to - 1) & 1u)) {
                differing += audit(turns, states + from, to - from) != 0;
                differing += audit(turns, NULL, 0) != 0;
                from = to;
            }
        }
        differing += memcmp(account, whole, sizeof whole) != 0;
    }
    expect(turns.name, "the log cut in every way", differing, 0);
}

/* One test: the call is refused with this number and leaves the account as it was. */
static void refused(struct sheet sheet, const char *what, const naxxurbi_state *states, size_t len, uint32_t wanted)
{
    uint32_t before[NUMBERS];
    memcpy(before, account, sizeof account);
    expect(sheet.name, what, audit(sheet, states, len), wanted);
    expect(sheet.name, "the account is as it was", memcmp(before, account, sizeof account) != 0, 0);
}

static void bad_sheets(void)
{
    for (uint32_t i = 0; i < NUMBERS; i++) {
        account[i] = 0xDEADBEEF - i;
    }
    for (uint32_t i = 0; i < sizeof BAD / sizeof BAD[0]; i++) {
        refused(*BAD[i], "a bad sheet before an account that is past", STATES(1, 2), i + 1);
    }
    refused(turns, "an account of anything", NULL, 0, PAST);
}

static void past(void)
{
    static const uint32_t ends[] = {KEPT, BROKEN - 1, BROKEN, NUMBERS - 1};
    clear();
    refused(turns, "1,000,001 moments at once", zeros, MOMENTS + 1, PAST);
    expect(turns.name, "1,000,000 moments at once", audit(turns, zeros, MOMENTS), 0);
    expect(turns.name, "as many are counted", account[COUNT], MOMENTS);
    expect(turns.name, "as many moves broke rule 3, but one", account[BROKEN + 2], MOMENTS - 1);
    refused(turns, "one more", zeros, 1, PAST);
    expect(turns.name, "none more", audit(turns, NULL, 0), 0);
    clear();
    account[COUNT] = MOMENTS + 1;
    refused(turns, "a count past the bound", NULL, 0, PAST);
    for (uint32_t i = 0; i < sizeof ends / sizeof ends[0]; i++) {
        clear();
        account[ends[i]] = MOMENTS;
        expect(turns.name, "a tally at the bound", audit(turns, NULL, 0), 0);
        account[ends[i]] = MOMENTS + 1;
        refused(turns, "a tally past the bound", NULL, 0, PAST);
    }
    clear();
    account[COUNT] = 1;
    account[LAST] = 1;
    account[KEPT] = MOMENTS;
    expect(turns.name, "a tally at the bound grows", audit(turns, STATES(2)), 0);
    expect(turns.name, "by one", account[KEPT], MOMENTS + 1);
    refused(turns, "and is past it then", NULL, 0, PAST);
}

/* Accounts that no audit made. */
static void made_up(void)
{
    uint32_t before[NUMBERS];
    clear();
    account[LAST] = 1;
    expect(turns.name, "count 0: the last state is not looked at", audit(turns, STATES(1)), 0);
    accounted("count 0: the last state is not looked at", FIVE(1, 1, 0, 0, 0), THREE(0, 0, 0), THREE(0, 0, 0));
    clear();
    account[WHAT] = 77;
    account[MOMENT] = 0xFFFFFFFF;
    account[RULE] = 999;
    expect(turns.name, "a breach of no kind is carried", audit(turns, STATES(3)), 0);
    accounted("a breach of no kind is carried", FIVE(1, 3, 77, 0xFFFFFFFF, 999), THREE(0, 0, 0), THREE(0, 0, 0));
    clear();
    account[MOMENT] = 5;
    account[RULE] = 6;
    expect(turns.name, "no breach, with a moment and a rule", audit(turns, STATES(1)), 0);
    accounted("they are carried", FIVE(1, 1, 0, 5, 6), THREE(0, 0, 0), THREE(0, 0, 0));
    expect(turns.name, "until a breach is told", audit(turns, STATES(1)), 0);
    accounted("until a breach is told", FIVE(2, 1, BROKE_STEP, 1, 1), THREE(0, 0, 0), THREE(1, 0, 0));
    for (uint32_t i = 0; i < NUMBERS; i++) {
        account[i] = 3 * i + 1;
    }
    memcpy(before, account, sizeof account);
    expect(turns.name, "an empty piece", audit(turns, NULL, 0), 0);
    expect(turns.name, "changes no number", memcmp(before, account, sizeof account) != 0, 0);
    expect(turns.name, "one state", audit(turns, STATES(2)), 0);
    expect(turns.name, "tallies past the sheet's rules stay",
           memcmp(before + KEPT + 3, account + KEPT + 3, (TALLIES - 3) * sizeof before[0]) != 0 ||
               memcmp(before + BROKEN + 3, account + BROKEN + 3, (TALLIES - 3) * sizeof before[0]) != 0,
           0);
}

/* 255 step rules: each has its own tally. */
static void all_tallies(void)
{
    uint32_t differing = 0;
    struct sheet ring;
    make_ring(1);
    ring = (struct sheet){"ring", made, made_len};
    clear();
    expect(ring.name, "from letter 1 to 2, and to 4", audit(ring, STATES(1, 2, 8)), 0);
    expect(ring.name, "rule 2 is broken first", account[RULE], 2);
    for (uint32_t i = 0; i < TALLIES; i++) {
        differing += account[KEPT + i] != (i % ALL_LETTERS == 0);
        differing += account[BROKEN + i] != (i % ALL_LETTERS == 1);
    }
    expect(ring.name, "255 rules, each tallied", differing, 0);
}

int main(void)
{
    worked_logs();
    every_cutting();
    bad_sheets();
    past();
    made_up();
    all_tallies();
    return report();
}
