/*
 * The place of each fault, as a C host gets it: the ten faults with their bytes counted by hand, each at its first and its last possible
 * place, asked of naxxurbi_read_place and naxxurbi_judge without fences and between them. Every other call says the number alone.
 */
#define _DEFAULT_SOURCE
#include <string.h>

#include "naxxurbi.h"
#include "fence.h"
#include "make.h"
#include "test.h"

enum { FAULTS = 10, READ = 2, JUDGED = 5, AT = 4 };

static const uint32_t OLD = 0xDEADBEEF;

/* A sheet, written down in full, with its fault. */
struct row {
    const char *what;
    uint32_t number, place;
    size_t len;
    uint8_t bytes[24];
};

static const struct row rows[] = {
    {"no bytes", 1, 0, 0, {0}},
    {"7 bytes", 1, 0, 7, {1, 0, 7, 1, 0, 0, 0}},
    {"version 2", 2, 0, 8, {2, 0, 8, 1, 0, 0, 0, 0}},
    {"length's high byte", 3, 1, 8, {1, 1, 8, 1, 0, 0, 0, 0}},
    {"length's low byte", 3, 1, 8, {1, 0, 9, 1, 0, 0, 0, 0}},
    {"no letters", 4, 3, 8, {1, 0, 8, 0, 0, 0, 0, 0}},
    {"25 letters", 4, 3, 8, {1, 0, 8, 25, 0, 0, 0, 0}},
    {"33 limits", 5, 4, 8, {1, 0, 8, 1, 33, 0, 0, 0}},
    {"33 limits and 17 promises", 5, 4, 8, {1, 0, 8, 1, 33, 0, 0, 17}},
    {"17 promises", 5, 7, 8, {1, 0, 8, 1, 0, 0, 0, 17}},
    {"first record missing", 6, 8, 8, {1, 0, 8, 1, 0, 1, 0, 0}},
    {"second record missing", 6, 10, 10, {1, 0, 10, 1, 0, 2, 0, 0, 1, 1}},
    {"record past the end", 6, 8, 9, {1, 0, 9, 1, 0, 1, 0, 0, 1}},
    {"limit of one byte", 7, 8, 10, {1, 0, 10, 1, 1, 0, 0, 0, 1, 0}},
    {"limit of kind 2", 7, 8, 11, {1, 0, 11, 1, 1, 0, 0, 0, 2, 2, 0}},
    {"step rule with too long a left side", 7, 8, 11, {1, 0, 11, 1, 0, 0, 1, 0, 2, 2, 1}},
    {"promise of two bytes", 7, 8, 11, {1, 0, 11, 2, 0, 0, 0, 1, 2, 1, 2}},
    {"second step rule empty", 7, 10, 11, {1, 0, 11, 1, 0, 0, 2, 0, 1, 0, 0}},
    {"promise 0", 8, 9, 10, {1, 0, 10, 1, 0, 0, 0, 1, 1, 0}},
    {"promise -128", 8, 9, 10, {1, 0, 10, 24, 0, 0, 0, 1, 1, 0x80}},
    {"limit, letter 2 of 1", 8, 11, 12, {1, 0, 12, 1, 1, 0, 0, 0, 3, 0, 0, 2}},
    {"left side, letter 2 of 1", 8, 10, 12, {1, 0, 12, 1, 0, 0, 1, 0, 3, 1, 2, 1}},
    {"right side, letter 2 of 1", 8, 11, 12, {1, 0, 12, 1, 0, 0, 1, 0, 3, 1, 1, 2}},
    {"first rule, 1 twice", 9, 10, 11, {1, 0, 11, 1, 0, 1, 0, 0, 2, 1, 1}},
    {"limit, 1 before -1", 9, 12, 13, {1, 0, 13, 1, 1, 0, 0, 0, 4, 0, 1, 1, 0xFF}},
    {"left side, 1 twice", 9, 11, 12, {1, 0, 12, 1, 0, 0, 1, 0, 3, 2, 1, 1}},
    {"right side, 1 twice", 9, 12, 13, {1, 0, 13, 1, 0, 0, 1, 0, 4, 1, 1, 1, 1}},
    {"no record and a byte", 10, 8, 9, {1, 0, 9, 1, 0, 0, 0, 0, 0}},
    {"two bytes left", 10, 10, 12, {1, 0, 12, 1, 0, 0, 0, 1, 1, 1, 1, 1}},
};

/* The first and the last place of each fault that were seen; none yet: first above last. */
static uint32_t first_seen[FAULTS + 1], last_seen[FAULTS + 1];

/* One sheet, its copy and what is written fenced: the reader's two numbers, and the judge's five where nothing is lent. */
static void between_fences(const char *what, const uint8_t *sheet, size_t len, const uint32_t fault[READ], enum place place)
{
    const uint32_t old[JUDGED] = {OLD, OLD, OLD, OLD, OLD}, wanted[JUDGED] = {fault[0], 0, 0, 0, fault[1]};
    struct fenced copy = fence_to_read(sheet, len, place);
    struct fenced two = fence(old, READ * sizeof old[0], place), five = fence(old, sizeof old, place);
    naxxurbi_read_place(copy.at, len, (uint32_t *)(void *)two.at);
    naxxurbi_judge(copy.at, len, NULL, 0, NULL, 0, NULL, 0, NULL, 0, (uint32_t *)(void *)five.at);
    expect(what, "read between fences", memcmp(two.at, fault, two.len) == 0, 1);
    expect(what, "judged between fences", memcmp(five.at, wanted, five.len) == 0, 1);
    expect(what, "around the reader's numbers", (uint32_t)unfence(two), 1);
    expect(what, "around the judge's numbers", (uint32_t)unfence(five), 1);
    unfence(copy);
}

/* One sheet: every call says the number, and those that tell a place this place. */
static void fault_at(const char *what, const uint8_t *sheet, size_t len, uint32_t number, uint32_t place)
{
    const uint32_t fault[READ] = {number, place};
    uint32_t found[READ] = {OLD, OLD}, out[JUDGED] = {OLD, OLD, OLD, OLD, OLD};
    naxxurbi_read_place(sheet, len, found);
    expect(what, "read with the place", found[0], number);
    expect(what, "place read", found[1], place);
    naxxurbi_judge(sheet, len, NULL, 0, NULL, 0, NULL, 0, NULL, 0, out);
    expect(what, "judged", out[0], number);
    expect(what, "place judged", out[AT], place);
    expect(what, "read", naxxurbi_read(sheet, len), number);
    expect(what, "run checked", naxxurbi_check_run(sheet, len, NULL, 0, 0), number);
    expect(what, "strike list checked", naxxurbi_check_strikes(sheet, len, NULL, 0, NULL, 0), number);
    between_fences(what, sheet, len, fault, AT_START);
    between_fences(what, sheet, len, fault, AT_END);
    first_seen[number] = found[1] < first_seen[number] ? found[1] : first_seen[number];
    last_seen[number] = found[1] > last_seen[number] ? found[1] : last_seen[number];
}

static void made_at(const char *what, uint32_t number, uint32_t place)
{
    state_length();
    fault_at(what, made, made_len, number, place);
}

/* A sheet of 4,096 bytes whose last record, at the end, is changed or followed by one that is missing. */
static void at_the_end(void)
{
    enum { FIRSTS = 5, STEPS = 6, PROMISES = 7 };
    make_longest();
    made[FIRSTS]++;
    made_at("4,096 bytes, a first rule missing", 6, MOST_BYTES);
    make_longest();
    made[PROMISES]++;
    made_at("4,096 bytes, a promise missing", 6, MOST_BYTES);
    /* One byte shorter: the last of the first rules has a literal less, and there is room for a length byte. */
    make_longest();
    made_len--;
    made[MOST_BYTES - 43]--;
    byte(1);
    made[STEPS] = 1;
    made_at("4,096 bytes, a step rule past the end", 6, MOST_BYTES - 1);
    made[MOST_BYTES - 1] = 0;
    made_at("4,096 bytes, a step rule of no bytes", 7, MOST_BYTES - 1);
    made[STEPS] = 0;
    made_at("4,096 bytes, one too many", 10, MOST_BYTES - 1);
    make_longest();
    made[MOST_BYTES - 1] = ALL_LETTERS + 1;
    made_at("4,096 bytes, the last no letter", 8, MOST_BYTES - 1);
    made[MOST_BYTES - 1] = made[MOST_BYTES - 2];
    made_at("4,096 bytes, the last twice", 9, MOST_BYTES - 1);
    make_longest();
    byte(0);
    made_at("4,097 bytes", 1, 0);
}

/* Good sheets: 0 and no place, whatever the judge answers. */
static void good(const struct sheet *sheet, uint32_t judged)
{
    uint32_t found[READ] = {OLD, OLD}, out[JUDGED] = {OLD, OLD, OLD, OLD, OLD}, words[4];
    naxxurbi_state table[4], scratch[8], run[4];
    naxxurbi_read_place(sheet->bytes, sheet->len, found);
    expect(sheet->name, "read with the place", found[0], 0);
    expect(sheet->name, "no place read", found[1], 0);
    naxxurbi_judge(sheet->bytes, sheet->len, table, 4, words, 4, scratch, 8, run, 4, out);
    expect(sheet->name, "judged", out[0], judged);
    expect(sheet->name, "no place judged", out[AT], 0);
    naxxurbi_judge(sheet->bytes, sheet->len, table, 1, words, 1, scratch, 2, run, 0, out);
    expect(sheet->name, "no place, little room", out[AT], 0);
}

/* Every fault was seen at its first and at its last possible place. */
static void all_seen(void)
{
    static const uint32_t first[] = {0, 0, 0, 1, 3, 4, 8, 8, 9, 10, 8};
    static const uint32_t last[] = {0, 0, 0, 1, 3, 7, 4096, 4095, 4095, 4095, 4095};
    for (size_t number = 1; number <= FAULTS; number++) {
        expect("all sheets", "the first place", first_seen[number], first[number]);
        expect("all sheets", "the last place", last_seen[number], last[number]);
    }
}

int main(void)
{
    memset(first_seen, 0xFF, sizeof first_seen);
    for (size_t i = 0; i < sizeof rows / sizeof rows[0]; i++) {
        fault_at(rows[i].what, rows[i].bytes, rows[i].len, rows[i].number, rows[i].place);
    }
    at_the_end();
    all_seen();
    good(&w1, 0);
    good(&w2, 0);
    good(&w3, 0);
    good(&w4, 13);
    good(&w5, 13);
    good(&w6, 13);
    good(&w15, 13);
    return report();
}
