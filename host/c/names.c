/*
 * The header's names: every named answer is given by a call where its comment says so, every named size is the one that makes a
 * difference, and a word's round and reason are those of the judge's own list.
 */
#include "naxxurbi.h"
#include "test.h"

/* One sheet for each of the faults. */
SHEET(bad_size, "NAXXURBI_BAD_SIZE", 0x01, 0x00, 0x07, 0x01, 0x00, 0x00, 0x00);
SHEET(bad_version, "NAXXURBI_BAD_VERSION", 0x02, 0x00, 0x08, 0x01, 0x00, 0x00, 0x00, 0x00);
SHEET(bad_length, "NAXXURBI_BAD_LENGTH", 0x01, 0x00, 0x09, 0x01, 0x00, 0x00, 0x00, 0x00);
SHEET(bad_letters, "NAXXURBI_BAD_LETTERS", 0x01, 0x00, 0x08, NAXXURBI_LETTERS + 1, 0x00, 0x00, 0x00, 0x00);
SHEET(bad_limits, "NAXXURBI_BAD_COUNT, limits", 0x01, 0x00, 0x08, 0x01, NAXXURBI_LIMITS + 1, 0x00, 0x00, 0x00);
SHEET(bad_promises, "NAXXURBI_BAD_COUNT, promises", 0x01, 0x00, 0x08, 0x01, 0x00, 0x00, 0x00, NAXXURBI_PROMISES + 1);
SHEET(bad_record, "NAXXURBI_BAD_RECORD", 0x01, 0x00, 0x08, NAXXURBI_LETTERS, NAXXURBI_LIMITS, 0x00, 0x00, NAXXURBI_PROMISES);
SHEET(bad_shape, "NAXXURBI_BAD_SHAPE", 0x01, 0x00, 0x0B, 0x01, 0x00, 0x00, 0x00, 0x01, 0x02, 0x01, 0x01);
SHEET(bad_literal, "NAXXURBI_BAD_LITERAL", 0x01, 0x00, 0x0A, 0x01, 0x00, 0x00, 0x00, 0x01, 0x01, 0x00);
SHEET(bad_order, "NAXXURBI_BAD_ORDER", 0x01, 0x00, 0x0B, 0x02, 0x00, 0x01, 0x00, 0x00, 0x02, 0x02, 0x01);
SHEET(bad_end, "NAXXURBI_BAD_END", 0x01, 0x00, 0x09, 0x01, 0x00, 0x00, 0x00, 0x00, 0x00);

/* A sheet, its fault and the place of it. */
struct fault {
    const struct sheet *sheet;
    uint32_t number, place;
};

static const struct fault faults[] = {
    {&w1, NAXXURBI_OK, 0},
    {&bad_size, NAXXURBI_BAD_SIZE, 0},
    {&bad_version, NAXXURBI_BAD_VERSION, 0},
    {&bad_length, NAXXURBI_BAD_LENGTH, 1},
    {&bad_letters, NAXXURBI_BAD_LETTERS, 3},
    {&bad_limits, NAXXURBI_BAD_COUNT, 4},
    {&bad_promises, NAXXURBI_BAD_COUNT, 7},
    {&bad_record, NAXXURBI_BAD_RECORD, 8},
    {&bad_shape, NAXXURBI_BAD_SHAPE, 8},
    {&bad_literal, NAXXURBI_BAD_LITERAL, 9},
    {&bad_order, NAXXURBI_BAD_ORDER, 10},
    {&bad_end, NAXXURBI_BAD_END, 8},
};

static void faults_by_name(void)
{
    for (size_t i = 0; i < sizeof faults / sizeof faults[0]; i++) {
        uint32_t out[NAXXURBI_READ_NUMBERS];
        naxxurbi_read_place(faults[i].sheet->bytes, faults[i].sheet->len, out);
        expect(faults[i].sheet->name, "its number", out[NAXXURBI_ANSWER], faults[i].number);
        expect(faults[i].sheet->name, "its place", out[NAXXURBI_READ_PLACE], faults[i].place);
        expect(faults[i].sheet->name, "among the faults", faults[i].number <= NAXXURBI_LAST_FAULT, 1);
    }
}

/* What is lent: all the room that there can be, and one place more. */
static naxxurbi_state table[NAXXURBI_STATES + 1], scratch[NAXXURBI_SCRATCH + 2], run[NAXXURBI_RUN + 1];
static uint32_t words[NAXXURBI_STATES + 1], out[NAXXURBI_NUMBERS];

/* Judges with room for so many states and moments: the answer. */
static uint32_t judge(const struct sheet *sheet, size_t states, size_t moments)
{
    naxxurbi_judge(sheet->bytes, sheet->len, table, states, words, states, scratch, 2 * states, run, moments, out);
    return out[NAXXURBI_ANSWER];
}

/* W2 has two states and a run of two. W4 cannot be kept: state 0 falls in round 1 for promise 1, state 1 in round 2: it has no way on. */
static void the_judge_by_name(void)
{
    expect(w2.name, "NAXXURBI_OK", judge(&w2, 2, 2), NAXXURBI_OK);
    expect(w2.name, "count, a and b", out[NAXXURBI_COUNT] == 2 && out[NAXXURBI_A] == 1 && out[NAXXURBI_B] == 2, 1);
    expect(w2.name, "NAXXURBI_TOO_MANY_STATES", judge(&w2, 1, 2), NAXXURBI_TOO_MANY_STATES);
    expect(w2.name, "NAXXURBI_SHORT_RUN", judge(&w2, 2, 1), NAXXURBI_SHORT_RUN);
    expect(bad_order.name, "its place", judge(&bad_order, 2, 2) == NAXXURBI_BAD_ORDER && out[NAXXURBI_PLACE] == 10, 1);
    expect(w4.name, "NAXXURBI_CANNOT_BE_KEPT", judge(&w4, 2, 0), NAXXURBI_CANNOT_BE_KEPT);
    expect(w4.name, "rounds", NAXXURBI_ROUND(words[0]) == 1 && NAXXURBI_ROUND(words[1]) == 2, 1);
    expect(w4.name, "reasons", NAXXURBI_REASON(words[0]) == 1 && NAXXURBI_REASON(words[1]) == 0, 1);
    expect(w4.name, "words", words[0] == NAXXURBI_WORD(1, 1) && words[1] == NAXXURBI_WORD(2, 0), 1);
}

/* A sheet of so many letters and promises without any rule: every state is livable. */
static struct sheet without_rules(uint8_t letters, uint8_t promises)
{
    static uint8_t bytes[NAXXURBI_LEAST_BYTES + 2 * NAXXURBI_PROMISES];
    struct sheet sheet = {"a sheet without rules", bytes, (size_t)(NAXXURBI_LEAST_BYTES + 2 * promises)};
    const uint8_t header[] = {1, 0, (uint8_t)sheet.len, letters, 0, 0, 0, promises};
    memcpy(bytes, header, sizeof header);
    memset(bytes + sizeof header, 1, (size_t)2 * promises);
    return sheet;
}

/* 16,384 states are as many as there is room for, whatever is lent. */
static void the_most_states(void)
{
    struct sheet full = without_rules(14, NAXXURBI_PROMISES), over;
    expect(full.name, "NAXXURBI_STATES", judge(&full, NAXXURBI_STATES, NAXXURBI_RUN), NAXXURBI_OK);
    expect(full.name, "so many are livable", out[NAXXURBI_COUNT], NAXXURBI_STATES);
    expect(full.name, "one place fewer", judge(&full, NAXXURBI_STATES - 1, NAXXURBI_RUN), NAXXURBI_TOO_MANY_STATES);
    over = without_rules(15, 0);
    expect(over.name, "more states", judge(&over, NAXXURBI_STATES + 1, NAXXURBI_RUN + 1), NAXXURBI_TOO_MANY_STATES);
    expect("the judge's rooms", "scratch", NAXXURBI_SCRATCH, 2 * NAXXURBI_STATES);
    expect("the judge's rooms", "run", NAXXURBI_RUN, NAXXURBI_PROMISES * NAXXURBI_STATES);
}

static void the_checkers_by_name(void)
{
    uint8_t states[2 * NAXXURBI_STATE_BYTES], marks[2 * NAXXURBI_WORD_BYTES];
    size_t len = write_states(states, (const naxxurbi_state[]){0, 1}, 2);
    size_t marks_len = write_words(marks, (const uint32_t[]){NAXXURBI_WORD(1, 1), NAXXURBI_WORD(2, 0)}, 2);
    expect(w4.name, "NAXXURBI_OK", naxxurbi_check_strikes(w4.bytes, w4.len, states, len, marks, marks_len), NAXXURBI_OK);
    expect(w4.name, "NAXXURBI_NOT_ACCEPTED", naxxurbi_check_run(w4.bytes, w4.len, states, len, 0), NAXXURBI_NOT_ACCEPTED);
    expect(w2.name, "NAXXURBI_OK", naxxurbi_check_run(w2.bytes, w2.len, states, len, 1), NAXXURBI_OK);
}

/* W4's step rules lead from 1 to 0 and from 0 to 0: 1, 0, 0 keeps both, then 1 breaks rule 2. */
static void the_audit_by_name(void)
{
    static const naxxurbi_state log[] = {1, 0, 0, 1};
    uint32_t account[NAXXURBI_ACCOUNT] = {0};
    expect(w4.name, "NAXXURBI_NO_BREACH", naxxurbi_audit(w4.bytes, w4.len, account, log, 3) == NAXXURBI_OK &&
           account[NAXXURBI_ACCOUNT_BREACH] == NAXXURBI_NO_BREACH, 1);
    expect(w4.name, "rule 1 kept", account[NAXXURBI_ACCOUNT_KEPT + 1], 1);
    expect(w4.name, "NAXXURBI_OK", naxxurbi_audit(w4.bytes, w4.len, account, log + 3, 1), NAXXURBI_OK);
    expect(w4.name, "moments and the last state", account[NAXXURBI_ACCOUNT_MOMENTS] == 4 && account[NAXXURBI_ACCOUNT_LAST] == 1, 1);
    expect(w4.name, "NAXXURBI_BROKE_STEP_RULE", account[NAXXURBI_ACCOUNT_BREACH], NAXXURBI_BROKE_STEP_RULE);
    expect(w4.name, "its moment and rule", account[NAXXURBI_ACCOUNT_BREACH_MOMENT] == 3 && account[NAXXURBI_ACCOUNT_BREACH_RULE] == 2, 1);
    expect(w4.name, "rule 2 kept once and broken once",
           account[NAXXURBI_ACCOUNT_KEPT + 2] == 1 && account[NAXXURBI_ACCOUNT_BROKEN + 2] == 1, 1);
    memset(account, 0, sizeof account);
    naxxurbi_audit(w4.bytes, w4.len, account, log + 1, 1);
    expect(w4.name, "NAXXURBI_BROKE_FIRST_RULE", account[NAXXURBI_ACCOUNT_BREACH], NAXXURBI_BROKE_FIRST_RULE);
    memset(account, 0, sizeof account);
    naxxurbi_audit(w4.bytes, w4.len, account, (const naxxurbi_state[]){2}, 1);
    expect(w4.name, "NAXXURBI_UNLAWFUL", account[NAXXURBI_ACCOUNT_BREACH], NAXXURBI_UNLAWFUL);
    account[NAXXURBI_ACCOUNT_MOMENTS] = NAXXURBI_MOMENTS;
    expect(w4.name, "no moment more", naxxurbi_audit(w4.bytes, w4.len, account, NULL, 0), NAXXURBI_OK);
    expect(w4.name, "NAXXURBI_TOO_MANY_MOMENTS", naxxurbi_audit(w4.bytes, w4.len, account, log, 1), NAXXURBI_TOO_MANY_MOMENTS);
}

static void the_others_by_name(void)
{
    static uint8_t sheet[NAXXURBI_BYTES], marks[NAXXURBI_RULES];
    uint32_t lead[NAXXURBI_LEAD] = {0, 0}, closed[NAXXURBI_READ_NUMBERS], ends[NAXXURBI_CLASS_SHEETS + 1] = {0};
    uint32_t numbers[NAXXURBI_CLASS_NUMBERS * (NAXXURBI_CLASS_SHEETS + 1)];
    const size_t room = sizeof numbers / sizeof numbers[0];
    naxxurbi_serial_close(lead, sheet, closed);
    expect("a lead of nothing", "NAXXURBI_BAD_SIZE", closed[NAXXURBI_ANSWER], NAXXURBI_BAD_SIZE);
    expect("a lead of nothing", "NAXXURBI_CLOSED", naxxurbi_serial_take(lead, sheet, NULL, 0), NAXXURBI_CLOSED);
    for (size_t sheets = NAXXURBI_CLASS_SHEETS; sheets <= NAXXURBI_CLASS_SHEETS + 1; sheets++) {
        expect("32 sheets, and 33", "NAXXURBI_CLASS_REFUSED",
               naxxurbi_judge_class(NULL, 0, ends, sheets, NULL, 0, NULL, 0, NULL, 0, NULL, 0, numbers, room),
               sheets == NAXXURBI_CLASS_SHEETS ? NAXXURBI_OK : NAXXURBI_CLASS_REFUSED);
    }
    expect(w4.name, "NAXXURBI_TRIAL_TOO_LARGE", naxxurbi_clash(w4.bytes, w4.len, NULL, 0, NULL, 0, NULL, 0, marks),
           NAXXURBI_TRIAL_TOO_LARGE);
    expect(w2.name, "NAXXURBI_SHORT_RUN", naxxurbi_clash(w2.bytes, w2.len, table, 2, words, 2, scratch, 4, marks), NAXXURBI_SHORT_RUN);
}

int main(void)
{
    faults_by_name();
    the_judge_by_name();
    the_most_states();
    the_checkers_by_name();
    the_audit_by_name();
    the_others_by_name();
    return report();
}
