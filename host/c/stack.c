/*
 * The stack that each call takes: runs it on a stack of exactly as many pages as the header states, between two fences, and prints how much
 * of it was used. A call that took more would be ended by a fence. Sheets have up to 24 letters and are judged to the end.
 */
#define _GNU_SOURCE
#include <stdio.h>
#include <ucontext.h>

#include "naxxurbi.h"
#include "fence.h"
#include "make.h"
#include "test.h"

/* What the header states, in pages of 4,096 bytes (a class: the judge's); and how wide the fences are: a call may take all its stack at once. */
enum { READ_PAGES = 1, SERIAL_PAGES = 1, RUN_PAGES = 2, STRIKES_PAGES = 4, AUDIT_PAGES = 4, JUDGE_PAGES = 256, CLASH_PAGES = 256, FENCE = 4 << 20 };

enum { STATES = NAXXURBI_STATES, MOMENTS = NAXXURBI_RUN, KEPT = NAXXURBI_SHORT_RUN, CROWDED = NAXXURBI_TRIAL_TOO_LARGE };
enum { NO_ROOM = NAXXURBI_TOO_MANY_STATES, CANNOT = NAXXURBI_CANNOT_BE_KEPT };

static naxxurbi_state table[STATES], scratch[2 * STATES], run[MOMENTS];
static uint32_t words[STATES], out[NAXXURBI_NUMBERS], answer;
static uint8_t states_paper[NAXXURBI_STATE_BYTES * MOMENTS], words_paper[NAXXURBI_WORD_BYTES * STATES];
static size_t states_len, words_len;
static uint32_t account[NAXXURBI_ACCOUNT], of_class[NAXXURBI_CLASS_NUMBERS];
static const naxxurbi_state log_states[] = {1, 2, 4, 8, 3, 0, 0xFFFFFFFF};

static void call_read(void)
{
    answer = naxxurbi_read(made, made_len);
}

static uint32_t found[2];

static void call_read_place(void)
{
    naxxurbi_read_place(made, made_len, found);
    answer = found[0];
}

static uint32_t lead[NAXXURBI_LEAD];
static uint8_t taken[NAXXURBI_BYTES];

/* The sheet in two pieces: the stack is that of the calls, whichever bytes come. */
static void call_serial_take(void)
{
    size_t half = made_len / 2;
    lead[0] = lead[1] = 0;
    answer = naxxurbi_serial_take(lead, taken, made, half);
    answer += naxxurbi_serial_take(lead, taken, made + half, made_len - half);
}

static void call_serial_close(void)
{
    naxxurbi_serial_close(lead, taken, found);
    answer = found[0];
}

static void call_judge(void)
{
    naxxurbi_judge(made, made_len, table, STATES, words, STATES, scratch, (size_t)2 * STATES, run, MOMENTS, out);
    answer = out[0];
}

static void call_judge_class(void)
{
    static uint32_t ends[1];
    ends[0] = (uint32_t)made_len;
    answer = naxxurbi_judge_class(made, made_len, ends, 1, table, STATES, words, STATES, scratch, (size_t)2 * STATES, run, MOMENTS, of_class,
                                  NAXXURBI_CLASS_NUMBERS);
}

static void call_check_run(void)
{
    answer = naxxurbi_check_run(made, made_len, states_paper, states_len, out[NAXXURBI_A]);
}

static void call_check_strikes(void)
{
    answer = naxxurbi_check_strikes(made, made_len, states_paper, states_len, words_paper, words_len);
}

static void call_audit(void)
{
    answer = naxxurbi_audit(made, made_len, account, log_states, sizeof log_states / sizeof log_states[0]);
}

static uint8_t marks[NAXXURBI_RULES];
static uint32_t rules[NAXXURBI_RULES];
static size_t rules_len;

static void call_clash(void)
{
    answer = naxxurbi_clash(made, made_len, table, STATES, words, STATES, scratch, (size_t)2 * STATES, marks);
}

static void call_check_clash(void)
{
    answer = naxxurbi_check_clash(made, made_len, rules, rules_len, table, STATES, words, STATES, scratch, (size_t)2 * STATES);
}

/* The marked rules become the proposed ones. */
static void propose(void)
{
    rules_len = 0;
    for (uint32_t i = 0; i < NAXXURBI_RULES; i++) {
        if (marks[i] != 0) {
            rules[rules_len++] = i + 1;
        }
    }
}

/* Runs a call on a fenced stack of so many pages, painted beforehand, and gives back how many bytes are no longer paint. */
static size_t used(void (*call)(void), size_t pages)
{
    static ucontext_t here, there;
    size_t size = pages * PAGE, untouched = 0;
    uint8_t *stack = fenced_pages(size, FENCE);
    memset(stack, PAINT, size);
    if (getcontext(&there) != 0) {
        abort();
    }
    there.uc_stack.ss_sp = stack;
    there.uc_stack.ss_size = size;
    there.uc_link = &here;
    makecontext(&there, call, 0);
    if (swapcontext(&here, &there) != 0) {
        abort();
    }
    while (untouched < size && stack[untouched] == PAINT) {
        untouched++;
    }
    munmap(stack - FENCE, size + 2 * (size_t)FENCE);
    return size - untouched;
}

/* One test: the call returns on its stack, with this answer. */
static void on_its_stack(const char *name, const char *what, void (*call)(void), size_t pages, uint32_t wanted)
{
    printf("%-46s %-14s", name, what);
    fflush(stdout);
    printf(" %6zu of %6zu bytes of stack\n", used(call, pages), pages * PAGE);
    expect(name, what, answer, wanted);
}

/* Reads and judges the sheet, and has the judge's paper checked, each on its stack. */
static void all_calls(const char *name, uint32_t judged)
{
    on_its_stack(name, "reader", call_read, READ_PAGES, 0);
    on_its_stack(name, "reader, place", call_read_place, READ_PAGES, 0);
    expect(name, "no place", found[1], 0);
    on_its_stack(name, "serial, take", call_serial_take, SERIAL_PAGES, 0);
    expect(name, "all bytes taken", lead[0], (uint32_t)made_len);
    on_its_stack(name, "serial, close", call_serial_close, SERIAL_PAGES, 0);
    expect(name, "closed, no place", found[1], 0);
    on_its_stack(name, "audit", call_audit, AUDIT_PAGES, 0);
    on_its_stack(name, "judge", call_judge, JUDGE_PAGES, judged);
    expect(name, "judged, no place", out[NAXXURBI_PLACE], 0);
    on_its_stack(name, "class", call_judge_class, JUDGE_PAGES, 0);
    expect(name, "judged the same in a class", memcmp(of_class, out, sizeof of_class) == 0, 1);
    states_len = write_states(states_paper, judged == 0 ? run : table, judged == 0 ? out[NAXXURBI_B] : out[NAXXURBI_COUNT]);
    words_len = write_words(words_paper, words, judged == 0 ? 0 : out[NAXXURBI_COUNT]);
    on_its_stack(name, "run checker", call_check_run, RUN_PAGES, judged == 0 ? ACCEPTED : NOT_ACCEPTED);
    on_its_stack(name, "strike checker", call_check_strikes, STRIKES_PAGES, judged == CANNOT ? ACCEPTED : NOT_ACCEPTED);
    on_its_stack(name, "planner", call_clash, CLASH_PAGES, judged == CANNOT ? 0 : judged == NO_ROOM ? CROWDED : KEPT);
    propose();
    on_its_stack(name, "check of rules", call_check_clash, CLASH_PAGES,
                 judged == CANNOT ? ACCEPTED : judged == NO_ROOM ? CROWDED : NOT_ACCEPTED);
}

/* The last literal of the longest sheet is no higher than the one before it: every call says 9, and those that tell a place byte 4,095. */
static void bad_sheet(void)
{
    const char *name = "4,096 bytes, the last of them bad";
    enum { BAD = NAXXURBI_BAD_ORDER };
    make_longest();
    made[made_len - 1]--;
    states_len = words_len = 0;
    on_its_stack(name, "reader", call_read, READ_PAGES, BAD);
    on_its_stack(name, "reader, place", call_read_place, READ_PAGES, BAD);
    expect(name, "place read", found[1], MOST_BYTES - 1);
    on_its_stack(name, "serial, take", call_serial_take, SERIAL_PAGES, 0);
    on_its_stack(name, "serial, close", call_serial_close, SERIAL_PAGES, BAD);
    expect(name, "place at closing", found[1], MOST_BYTES - 1);
    on_its_stack(name, "serial, closed", call_serial_close, SERIAL_PAGES, NAXXURBI_CLOSED);
    on_its_stack(name, "judge", call_judge, JUDGE_PAGES, BAD);
    expect(name, "place judged", out[NAXXURBI_PLACE], MOST_BYTES - 1);
    on_its_stack(name, "class", call_judge_class, JUDGE_PAGES, 0);
    expect(name, "judged bad in a class", of_class[0], BAD);
    on_its_stack(name, "run checker", call_check_run, RUN_PAGES, BAD);
    on_its_stack(name, "strike checker", call_check_strikes, STRIKES_PAGES, BAD);
    on_its_stack(name, "planner", call_clash, CLASH_PAGES, BAD);
    on_its_stack(name, "check of rules", call_check_clash, CLASH_PAGES, BAD);
}

int main(void)
{
    make_ring(1);
    all_calls("24 letters, 24 states in a ring, 16 promises", 0);
    make_ring(0);
    all_calls("24 letters, 24 states in a chain, 16 promises", CANNOT);
    make_exactly(ALL_LETTERS, 3, MOST_PROMISES);
    all_calls("24 letters, 2,024 states, 16 promises", 0);
    make_wheels(1);
    all_calls("24 letters, 512 states on wheels, 16 promises", 0);
    make_wheels(0);
    all_calls("24 letters, 512 states on wheels to an end", CANNOT);
    make_exactly(ALL_LETTERS, 25, 0);
    all_calls("24 letters, no state", CANNOT);
    make_at_odds(ALL_LETTERS, 4);
    all_calls("24 letters, limits at odds to the last letter", CANNOT);
    make_free(14, MOST_PROMISES);
    all_calls("14 letters, 16,384 states, 16 promises", 0);
    make_free(ALL_LETTERS, 0);
    all_calls("24 letters, more states than room", NO_ROOM);
    make_met(ALL_LETTERS);
    all_calls("24 letters, a limit that every state meets", NO_ROOM);
    make_free(1, 0);
    all_calls("1 letter", 0);
    bad_sheet();
    return report();
}
