/*
 * The C boundary, of every call: slices that are null, sheets that are cut off or damaged, sheets and slices that fill their pages to the last
 * byte, and papers made to cost much. Every call is made on fenced copies too (fence.h), and answers the same.
 */
#define _DEFAULT_SOURCE
#include <string.h>

#include "naxxurbi.h"
#include "fence.h"
#include "make.h"
#include "test.h"

enum { TABLE, WORDS, SCRATCH, RUN, SLICES };
enum { ANSWER = NAXXURBI_ANSWER, COUNT = NAXXURBI_COUNT, A = NAXXURBI_A, B = NAXXURBI_B, PLACE = NAXXURBI_PLACE };
enum { NO_ROOM = NAXXURBI_TOO_MANY_STATES, SHORT_RUN = NAXXURBI_SHORT_RUN, CANNOT = NAXXURBI_CANNOT_BE_KEPT };
enum { CROWDED = NAXXURBI_TRIAL_TOO_LARGE, NUMBERS = NAXXURBI_NUMBERS };
enum { ROOM = NAXXURBI_STATES, LONG_PAPER = 50000, ACCOUNT = NAXXURBI_ACCOUNT, OLD_BYTE = 0xDE };

static const uint32_t OLD = 0xDEADBEEF;

/* What is lent without fences, how many bytes a number of each slice takes, and the outcome there. */
static naxxurbi_state table_lent[2 * (ROOM + 1)], scratch_lent[2 * (ROOM + 1)], run_lent[2 * (ROOM + 1)];
static uint32_t words_lent[2 * (ROOM + 1)];
static void *const lent[SLICES] = {table_lent, words_lent, scratch_lent, run_lent};
static const size_t widths[SLICES] = {sizeof table_lent[0], sizeof words_lent[0], sizeof scratch_lent[0], sizeof run_lent[0]};
static uint32_t out[NUMBERS];
static uint8_t states[NAXXURBI_STATE_BYTES * LONG_PAPER], words[NAXXURBI_WORD_BYTES * LONG_PAPER];

static void judge(const uint8_t *sheet, size_t len, const size_t sizes[SLICES])
{
    for (size_t i = 0; i < SLICES; i++) {
        memset(lent[i], OLD_BYTE, sizes[i] * widths[i]);
    }
    naxxurbi_judge(sheet, len, table_lent, sizes[TABLE], words_lent, sizes[WORDS], scratch_lent, sizes[SCRATCH], run_lent, sizes[RUN],
                   out);
}

static void *numbers(struct fenced copy)
{
    return copy.at;
}

/* Lends so many numbers, each so wide, between fences. */
static struct fenced lend(size_t len, size_t width, enum place place)
{
    static uint8_t old[sizeof scratch_lent];
    memset(old, OLD_BYTE, len * width);
    return fence(old, len * width, place);
}

/* Takes the fences of lent numbers down: whether they are these, and nothing around them was touched. */
static int are(struct fenced copy, const void *wanted)
{
    int same = copy.len == 0 || memcmp(copy.at, wanted, copy.len) == 0;
    return unfence(copy) && same;
}

/*
 * Judges once more with everything fenced, by itself and as a class of one: whether the numbers and all slices are the same, and nothing
 * around them was touched.
 */
static int judged_the_same(const uint8_t *sheet, size_t len, const size_t sizes[SLICES], enum place place)
{
    const uint32_t one_end[] = {(uint32_t)len};
    struct fenced copy = fence_to_read(sheet, len, place), ends = fence_to_read(one_end, sizeof one_end, place);
    int same = 1;
    for (int in_class = 0; in_class < 2; in_class++) {
        struct fenced slices[SLICES], told = lend(in_class ? NAXXURBI_CLASS_NUMBERS : NUMBERS, sizeof out[0], place);
        for (size_t i = 0; i < SLICES; i++) {
            slices[i] = lend(sizes[i], widths[i], place);
        }
        naxxurbi_state *table = numbers(slices[TABLE]), *scratch = numbers(slices[SCRATCH]), *run = numbers(slices[RUN]);
        uint32_t *marks = numbers(slices[WORDS]);
        if (in_class) {
            same = naxxurbi_judge_class(copy.at, len, numbers(ends), 1, table, sizes[TABLE], marks, sizes[WORDS], scratch, sizes[SCRATCH], run,
                                        sizes[RUN], numbers(told), NAXXURBI_CLASS_NUMBERS) == 0 && same;
        } else {
            naxxurbi_judge(copy.at, len, table, sizes[TABLE], marks, sizes[WORDS], scratch, sizes[SCRATCH], run, sizes[RUN], numbers(told));
        }
        for (size_t i = 0; i < SLICES; i++) {
            same = are(slices[i], lent[i]) && same;
        }
        same = are(told, out) && same;
    }
    unfence(copy);
    unfence(ends);
    return same;
}

/*
 * Audits a log that stands still and moves on, an unlawful state in it, with everything fenced: whether it answers this fault, and the account is
 * the same as without fences.
 */
static int audited_the_same(const uint8_t *sheet, size_t len, uint32_t fault, enum place place)
{
    static const naxxurbi_state log[] = {0, 1, 1, 1, 2, 0xFFFFFFFF, 0xFFFFFFFF, 0};
    uint32_t account[ACCOUNT] = {0};
    struct fenced copy = fence_to_read(sheet, len, place), states_copy = fence_to_read(log, sizeof log, place);
    struct fenced carried = fence(account, sizeof account, place);
    size_t count = sizeof log / sizeof log[0];
    int same = naxxurbi_audit(sheet, len, account, log, count) == fault;
    same = naxxurbi_audit(copy.at, copy.len, numbers(carried), numbers(states_copy), count) == fault && same;
    same = are(carried, account) && same;
    unfence(copy);
    unfence(states_copy);
    return same;
}

/*
 * Takes the sheet over the serial lead in two pieces, with everything fenced: whether it answers this fault and its place at closing, and the
 * buffer begins with the sheet.
 */
static int taken_the_same(const uint8_t *sheet, size_t len, const uint32_t fault[2], enum place place)
{
    static const uint8_t nothing[MOST_BYTES];
    static const uint32_t open[2];
    size_t half = len / 2, stored = len < MOST_BYTES ? len : MOST_BYTES;
    const uint32_t closed[] = {(uint32_t)len, 1};
    struct fenced front = fence_to_read(sheet, half, place), back = fence_to_read(sheet + half, len - half, place);
    struct fenced state = fence(open, sizeof open, place), buffer = fence(nothing, sizeof nothing, place);
    struct fenced told = lend(2, sizeof out[0], place);
    int same = naxxurbi_serial_take(numbers(state), buffer.at, front.at, front.len) == 0;
    same = naxxurbi_serial_take(numbers(state), buffer.at, back.at, back.len) == 0 && same;
    naxxurbi_serial_close(numbers(state), buffer.at, numbers(told));
    same = memcmp(buffer.at, sheet, stored) == 0 && same;
    same = unfence(buffer) && same;
    same = are(state, closed) && same;
    same = are(told, fault) && same;
    unfence(front);
    unfence(back);
    return same;
}

/* What the finder of fighting rules says: the planner's answer, its marks as proposed rules, and what the check says of these. */
struct fought {
    uint32_t planned, checked, rules[NAXXURBI_RULES];
    size_t count;
    uint8_t marks[NAXXURBI_RULES];
};

static void propose(struct fought *found)
{
    found->count = 0;
    for (uint32_t i = 0; i < NAXXURBI_RULES; i++) {
        if (found->marks[i] != 0) {
            found->rules[found->count++] = i + 1;
        }
    }
}

/* Plans and checks the plan, without fences; the slices are those of `lent`. */
static struct fought fight(const uint8_t *sheet, size_t len, const size_t sizes[SLICES])
{
    struct fought found = {0};
    for (size_t i = 0; i < RUN; i++) {
        memset(lent[i], OLD_BYTE, sizes[i] * widths[i]);
    }
    memset(found.marks, PAINT, sizeof found.marks);
    found.planned = naxxurbi_clash(sheet, len, table_lent, sizes[TABLE], words_lent, sizes[WORDS], scratch_lent, sizes[SCRATCH],
                                   found.marks);
    propose(&found);
    found.checked = naxxurbi_check_clash(sheet, len, found.rules, found.count, table_lent, sizes[TABLE], words_lent, sizes[WORDS],
                                         scratch_lent, sizes[SCRATCH]);
    return found;
}

/* The same once more with everything fenced: whether answers, marks and slices are the same, and nothing around them was touched. */
static int fought_the_same(const uint8_t *sheet, size_t len, const size_t sizes[SLICES], const struct fought *wanted, enum place place)
{
    struct fenced copy = fence_to_read(sheet, len, place), slices[RUN], marks;
    struct fenced rules = fence_to_read(wanted->rules, wanted->count * sizeof wanted->rules[0], place);
    uint32_t planned, checked;
    int same;
    marks = lend(sizeof wanted->marks, 1, place);
    for (size_t i = 0; i < RUN; i++) {
        slices[i] = lend(sizes[i], widths[i], place);
    }
    planned = naxxurbi_clash(copy.at, len, numbers(slices[TABLE]), sizes[TABLE], numbers(slices[WORDS]), sizes[WORDS], numbers(slices[SCRATCH]),
                             sizes[SCRATCH], marks.at);
    checked = naxxurbi_check_clash(copy.at, len, numbers(rules), wanted->count, numbers(slices[TABLE]), sizes[TABLE], numbers(slices[WORDS]),
                                   sizes[WORDS], numbers(slices[SCRATCH]), sizes[SCRATCH]);
    same = planned == wanted->planned && checked == wanted->checked && memcmp(marks.at, wanted->marks, sizeof wanted->marks) == 0;
    for (size_t i = 0; i < RUN; i++) {
        same = same && (sizes[i] == 0 || memcmp(slices[i].at, lent[i], slices[i].len) == 0);
        same = unfence(slices[i]) && same;
    }
    same = unfence(marks) && same;
    unfence(rules);
    unfence(copy);
    return same;
}

/* What the reader and both checkers answer; and whether nothing around the two numbers of naxxurbi_read_place was touched. */
struct answers {
    uint32_t read, read_place[2], run, strikes;
    int clean;
};

/* The reader's and both checkers' answers on fenced copies. */
static struct answers read_and_check(const uint8_t *sheet, size_t len, size_t states_len, size_t words_len, uint32_t a, enum place place)
{
    struct fenced copy = fence_to_read(sheet, len, place);
    struct fenced paper = fence_to_read(states, states_len, place), marks = fence_to_read(words, words_len, place);
    struct answers found = {.read_place = {OLD, OLD}};
    struct fenced two = fence(found.read_place, sizeof found.read_place, place);
    found.read = naxxurbi_read(copy.at, copy.len);
    naxxurbi_read_place(copy.at, copy.len, numbers(two));
    memcpy(found.read_place, two.at, sizeof found.read_place);
    found.clean = unfence(two);
    found.run = naxxurbi_check_run(copy.at, copy.len, paper.at, paper.len, a);
    found.strikes = naxxurbi_check_strikes(copy.at, copy.len, paper.at, paper.len, marks.at, marks.len);
    unfence(copy);
    unfence(paper);
    unfence(marks);
    return found;
}

/* One sheet that was made: these five numbers, without fences and with them; and the paper that came with it is accepted. */
static void judged(const char *name, const size_t sizes[SLICES], const uint32_t wanted[NUMBERS])
{
    uint32_t fault = wanted[ANSWER] <= NAXXURBI_LAST_FAULT ? wanted[ANSWER] : NAXXURBI_OK;
    const uint32_t fault_at[] = {fault, wanted[PLACE]};
    judge(made, made_len, sizes);
    for (size_t field = 0; field < NUMBERS; field++) {
        expect(name, "judged", out[field], wanted[field]);
    }
    int kept = wanted[ANSWER] == 0, cannot = wanted[ANSWER] == CANNOT;
    size_t states_len = write_states(states, kept ? run_lent : table_lent, kept ? out[B] : cannot ? out[COUNT] : 0);
    size_t words_len = write_words(words, words_lent, cannot ? out[COUNT] : 0);
    for (int place = 0; place < PLACES; place++) {
        expect(name, "judged the same between fences", (uint32_t)judged_the_same(made, made_len, sizes, place), 1);
        expect(name, "audited the same between fences", (uint32_t)audited_the_same(made, made_len, fault, place), 1);
        expect(name, "taken over the lead between fences", (uint32_t)taken_the_same(made, made_len, fault_at, place), 1);
        struct answers found = read_and_check(made, made_len, states_len, words_len, out[A], place);
        expect(name, "read between fences", found.read, fault);
        expect(name, "read between fences, with the place", found.read_place[0], fault);
        expect(name, "place read between fences", found.read_place[1], wanted[PLACE]);
        expect(name, "only the two numbers written", (uint32_t)found.clean, 1);
        expect(name, "run checked between fences", found.run, fault > 0 ? fault : kept ? ACCEPTED : NOT_ACCEPTED);
        expect(name, "strike list checked between fences", found.strikes, fault > 0 ? fault : cannot ? ACCEPTED : NOT_ACCEPTED);
    }
    struct fought fought = fight(made, made_len, sizes);
    expect(name, "planned", fought.planned, fault > 0 ? fault : cannot ? 0 : wanted[ANSWER] == NO_ROOM ? CROWDED : SHORT_RUN);
    expect(name, "the plan checked", fought.checked, fault > 0 ? fault : cannot ? ACCEPTED : wanted[ANSWER] == NO_ROOM ? CROWDED : NOT_ACCEPTED);
    for (int place = 0; place < PLACES; place++) {
        expect(name, "planned the same between fences", (uint32_t)fought_the_same(made, made_len, sizes, &fought, place), 1);
    }
}

/* Sheets, slices and papers that fill their pages, or just what is asked for. */
static void filled(void)
{
    make_longest();
    judged("4,096 bytes", (const size_t[]){24, 24, 48, 1}, (const uint32_t[]){0, 24, 0, 1, 0});
    judged("4,096 bytes, a table too short", (const size_t[]){23, 24, 48, 1}, (const uint32_t[]){NO_ROOM, 0, 0, 0, 0});
    judged("4,096 bytes, no run", (const size_t[]){24, 24, 48, 0}, (const uint32_t[]){SHORT_RUN, 0, 0, 1, 0});
    made[made_len - 1]--;
    judged("4,096 bytes, the last literal no higher", (const size_t[]){24, 24, 48, 1},
           (const uint32_t[]){NAXXURBI_BAD_ORDER, 0, 0, 0, 4095});
    made_len--;
    state_length();
    /* The last record has 42 literals, so its length byte stands 43 before byte 4,096. */
    judged("4,095 bytes, the last record cut off", (const size_t[]){24, 24, 48, 1}, (const uint32_t[]){NAXXURBI_BAD_RECORD, 0, 0, 0, 4053});
    make_longest();
    byte(0);
    state_length();
    judged("4,097 bytes", (const size_t[]){24, 24, 48, 1}, (const uint32_t[]){NAXXURBI_BAD_SIZE, 0, 0, 0, 0});
    make_free(10, 0);
    judged("1,024 states", (const size_t[]){1024, 1024, 2048, 1024}, (const uint32_t[]){0, 1024, 0, 1, 0});
    make_dead(10);
    judged("1,024 states, no way on", (const size_t[]){1024, 1024, 2048, 1024}, (const uint32_t[]){CANNOT, 1024, 0, 0, 0});
    make_ring(1);
    judged("a ring, its run just fitting", (const size_t[]){24, 24, 48, 384}, (const uint32_t[]){0, 24, 0, 384, 0});
    judged("a ring, its run just not fitting", (const size_t[]){24, 24, 48, 383}, (const uint32_t[]){SHORT_RUN, 0, 0, 384, 0});
    make_ring(0);
    judged("a chain", (const size_t[]){24, 24, 48, 0}, (const uint32_t[]){CANNOT, 24, 0, 0, 0});
    make_free(14, 0);
    judged("16,384 states", (const size_t[]){ROOM, ROOM, 2 * ROOM, 1}, (const uint32_t[]){0, ROOM, 0, 1, 0});
    make_free(15, 0);
    judged("32,768 states", (const size_t[]){ROOM + 1, ROOM + 1, 2 * ROOM + 2, 1}, (const uint32_t[]){NO_ROOM, 0, 0, 0, 0});
}

/* A slice may be null where its length is 0: each alone, all four, and the sheet. */
static void null_slices(void)
{
    naxxurbi_state table[2], scratch[4], run[2];
    uint32_t marks[2];
    naxxurbi_judge(w2.bytes, w2.len, NULL, 0, marks, 2, scratch, 4, run, 2, out);
    expect(w2.name, "no table", out[ANSWER], NO_ROOM);
    naxxurbi_judge(w2.bytes, w2.len, table, 2, NULL, 0, scratch, 4, run, 2, out);
    expect(w2.name, "no words", out[ANSWER], NO_ROOM);
    naxxurbi_judge(w2.bytes, w2.len, table, 2, marks, 2, NULL, 0, run, 2, out);
    expect(w2.name, "no scratch", out[ANSWER], NO_ROOM);
    naxxurbi_judge(w2.bytes, w2.len, table, 2, marks, 2, scratch, 4, NULL, 0, out);
    expect(w2.name, "no run", out[ANSWER], SHORT_RUN);
    expect(w2.name, "no run: what it needs", out[B], 2);
    naxxurbi_judge(w4.bytes, w4.len, table, 2, marks, 2, scratch, 4, NULL, 0, out);
    expect(w4.name, "no run, and none needed", out[ANSWER], CANNOT);
    expect(w4.name, "no run, and none needed: words", marks[0] == 33 && marks[1] == 64, 1);
    naxxurbi_judge(w2.bytes, w2.len, NULL, 0, NULL, 0, NULL, 0, NULL, 0, out);
    expect(w2.name, "nothing lent", out[ANSWER], NO_ROOM);
    naxxurbi_judge(w6.bytes, w6.len, NULL, 0, NULL, 0, NULL, 0, NULL, 0, out);
    expect(w6.name, "nothing lent, and nothing needed", out[ANSWER], CANNOT);
    naxxurbi_judge(NULL, 0, NULL, 0, NULL, 0, NULL, 0, NULL, 0, out);
    expect("no sheet", "nothing lent", out[ANSWER], 1);
    naxxurbi_judge(NULL, 0, table, 2, marks, 2, scratch, 4, run, 2, out);
    expect("no sheet", "all lent", out[ANSWER], 1);
    expect("no sheet", "place", out[PLACE], 0);
    uint8_t fighting[NAXXURBI_RULES] = {7};
    expect(w4.name, "no rules", naxxurbi_check_clash(w4.bytes, w4.len, NULL, 0, table, 2, marks, 2, scratch, 4), NOT_ACCEPTED);
    expect(w4.name, "no rules, nothing lent", naxxurbi_check_clash(w4.bytes, w4.len, NULL, 0, NULL, 0, NULL, 0, NULL, 0), CROWDED);
    expect(w6.name, "no rules, nothing lent", naxxurbi_check_clash(w6.bytes, w6.len, NULL, 0, NULL, 0, NULL, 0, NULL, 0), ACCEPTED);
    expect(w6.name, "planned, nothing lent", naxxurbi_clash(w6.bytes, w6.len, NULL, 0, NULL, 0, NULL, 0, fighting), ACCEPTED);
    expect(w6.name, "planned, no mark", fighting[0], 0);
    expect(w4.name, "planned, nothing lent", naxxurbi_clash(w4.bytes, w4.len, NULL, 0, NULL, 0, NULL, 0, fighting), CROWDED);
    expect("no sheet", "planned, nothing lent", naxxurbi_clash(NULL, 0, NULL, 0, NULL, 0, NULL, 0, fighting), 1);
    expect("no sheet", "a proposal, nothing lent", naxxurbi_check_clash(NULL, 0, NULL, 0, NULL, 0, NULL, 0, NULL, 0), 1);
    uint32_t found[2] = {OLD, OLD};
    naxxurbi_read_place(NULL, 0, found);
    expect("no sheet", "read with the place", found[0], 1);
    expect("no sheet", "place read", found[1], 0);
}

/* The same of the audit, of the serial lead and of a class. */
static void null_pieces(void)
{
    static const naxxurbi_state no_letters[1];
    static const uint32_t zeros[ACCOUNT], open[2];
    static uint8_t buffer[MOST_BYTES];
    uint32_t account[ACCOUNT] = {0}, state[2] = {0}, end = 0, told[NAXXURBI_CLASS_NUMBERS] = {OLD, OLD, OLD, OLD};
    expect(w2.name, "no states audited", naxxurbi_audit(w2.bytes, w2.len, account, NULL, 0), 0);
    expect("no sheet", "audited", naxxurbi_audit(NULL, 0, account, no_letters, 1), NAXXURBI_BAD_SIZE);
    expect("no sheet", "the account is as it was", memcmp(account, zeros, sizeof account) == 0, 1);
    expect("no piece", "taken", naxxurbi_serial_take(state, buffer, NULL, 0), 0);
    expect("no piece", "the lead is as it was", memcmp(state, open, sizeof state) == 0, 1);
    expect("no class", "judged", naxxurbi_judge_class(NULL, 0, NULL, 0, NULL, 0, NULL, 0, NULL, 0, NULL, 0, NULL, 0), 0);
    expect("a class of no bytes", "judged", naxxurbi_judge_class(NULL, 0, &end, 1, NULL, 0, NULL, 0, NULL, 0, NULL, 0, told, 4), 0);
    expect("a class of no bytes", "its sheet", told[0] == 1 && told[1] == 0 && told[2] == 0 && told[3] == 0, 1);
}

/* Whether an answer goes with this fault of the sheet; 0: it has none. */
static int goes_with(uint32_t answer, uint32_t fault)
{
    return fault > 0 ? answer == fault : answer == NAXXURBI_OK || answer > NAXXURBI_LAST_FAULT;
}

/* Whether all calls, between fences, say this fault of the sheet, and those that tell a place this place. */
static int all_say(const uint8_t *sheet, size_t len, const uint32_t fault[2], enum place place)
{
    static const size_t sizes[SLICES] = {5, 4, 9, 3};
    judge(sheet, len, sizes);
    struct answers found = read_and_check(sheet, len, 8, 8, 0, place);
    int read = found.clean && found.read == fault[0] && memcmp(found.read_place, fault, sizeof found.read_place) == 0;
    int checked = goes_with(found.run, fault[0]) && goes_with(found.strikes, fault[0]);
    int judged = judged_the_same(sheet, len, sizes, place) && goes_with(out[ANSWER], fault[0]) && out[PLACE] == fault[1];
    int others = audited_the_same(sheet, len, fault[0], place) && taken_the_same(sheet, len, fault, place);
    struct fought fought = fight(sheet, len, sizes);
    int planned = goes_with(fought.planned, fault[0]) && goes_with(fought.checked, fault[0]);
    return judged && read && checked && others && planned && fought_the_same(sheet, len, sizes, &fought, place);
}

/* The length byte of W15's record that is not whole in the first `len` bytes, or `len` where that byte is missing. */
static uint32_t first_not_whole(size_t len)
{
    size_t at = 8;
    while (at < len && at + 1 + w15_bytes[at] <= len) {
        at += (size_t)1 + w15_bytes[at];
    }
    return (uint32_t)at;
}

/* W15 cut off after every byte, with the length put right: too short (1), then a record missing or past the end (6). */
static void cut_off(void)
{
    uint8_t cut[sizeof w15_bytes];
    for (size_t len = 0; len < sizeof cut; len++) {
        memcpy(cut, w15_bytes, len);
        if (len > 2) {
            cut[1] = 0;
            cut[2] = (uint8_t)len;
        }
        int tiny = len < NAXXURBI_LEAST_BYTES;
        const uint32_t fault[2] = {tiny ? NAXXURBI_BAD_SIZE : NAXXURBI_BAD_RECORD, tiny ? 0 : first_not_whole(len)};
        expect(w15.name, "cut off", (uint32_t)(all_say(cut, len, fault, AT_START) && all_say(cut, len, fault, AT_END)), 1);
    }
}

/* One byte changed, in every place, to numbers at the bounds of what it may be: the fault is the one that the reader gives without fences. */
static void one_byte_changed(const struct sheet *sheet)
{
    static const uint8_t values[] = {0, 1, 2, 3, 7, 8, 15, 16, 17, 24, 25, 32, 33, 127, 128, 129, 240, 241, 254, 255};
    uint8_t bytes[sizeof w15_bytes];
    for (size_t i = 0; i < sheet->len; i++) {
        int right = 1;
        memcpy(bytes, sheet->bytes, sheet->len);
        for (size_t value = 0; value < sizeof values; value++) {
            bytes[i] = values[value];
            uint32_t fault[2];
            naxxurbi_read_place(bytes, sheet->len, fault);
            right = right && fault[0] <= NAXXURBI_LAST_FAULT && all_say(bytes, sheet->len, fault, AT_START);
            right = right && all_say(bytes, sheet->len, fault, AT_END);
        }
        expect(sheet->name, "one byte changed", (uint32_t)right, 1);
    }
}

/* The made sheet has more states than any list could hold: a long list is refused, and the judge has no room. */
static void hostile(const char *name)
{
    for (uint32_t i = 0; i < LONG_PAPER; i++) {
        write_number(states + NAXXURBI_STATE_BYTES * i, 2 * i, NAXXURBI_STATE_BYTES);
        write_number(words + NAXXURBI_WORD_BYTES * i, NAXXURBI_WORD(1, 1), NAXXURBI_WORD_BYTES);
    }
    for (int place = 0; place < PLACES; place++) {
        struct answers found = read_and_check(made, made_len, sizeof states, sizeof words, 0, place);
        expect(name, "a long run", found.run, NOT_ACCEPTED);
        expect(name, "a long list", found.strikes, NOT_ACCEPTED);
    }
    judge(made, made_len, (const size_t[]){ROOM + 1, ROOM + 1, 2 * ROOM + 2, 0});
    expect(name, "judged", out[ANSWER], NO_ROOM);
}

/* Papers and sheets made to cost much: every call ends. */
static void hostile_papers(void)
{
    make_free(ALL_LETTERS, 1);
    hostile("24 letters, every state a first state");
    make_none_first(ALL_LETTERS, 1);
    hostile("24 letters, every state a next state");
    make_exactly(ALL_LETTERS, 1, 0);
    judged("24 letters, few states", (const size_t[]){24, 24, 48, 1}, (const uint32_t[]){0, 24, 0, 1, 0});
}

int main(void)
{
    null_slices();
    null_pieces();
    filled();
    cut_off();
    one_byte_changed(&w4);
    one_byte_changed(&w15);
    hostile_papers();
    return report();
}
