/*
 * Sheets over the serial lead, as C calls it: every cutting of W4 into up to three pieces, empty ones among them; pieces that just fill the
 * buffer and pass its end; a million bytes; every call after closing; states that no lead made; and the guide's loop over a file descriptor.
 *
 * The buffer is lent filled with a byte of its own, with a fence behind it, and compared whole.
 */
#define _POSIX_C_SOURCE 200809L
#include <string.h>
#include <unistd.h>

#include "naxxurbi.h"
#include "test.h"

enum { ROOM = NAXXURBI_BYTES, FENCE = 16, OLD = 0xA5, MILLION = 1000000, CLOSED = NAXXURBI_CLOSED, TOO_LONG = NAXXURBI_BAD_SIZE };

/* A lead with its buffer, and what should stand there. */
struct lead {
    uint32_t state[2];
    uint8_t sheet[ROOM + FENCE];
    uint8_t wanted[ROOM + FENCE];
};

static struct lead lead;
static uint8_t bytes[MILLION];

/* What went wrong since the last row was counted. */
static uint32_t wrong;

static void same(const char *what, const char *where, uint32_t got, uint32_t wanted)
{
    if (got != wanted) {
        wrong++;
        printf("%s, %s: got %lu, wanted %lu\n", where, what, (unsigned long)got, (unsigned long)wanted);
    }
}

/* Counts a row: a lead from its start to its last call. */
static void row(const char *name)
{
    expect(name, "what went wrong", wrong, 0);
    wrong = 0;
}

static void start(uint32_t taken, uint32_t closed)
{
    lead.state[0] = taken;
    lead.state[1] = closed;
    memset(lead.sheet, OLD, sizeof lead.sheet);
    memset(lead.wanted, OLD, sizeof lead.wanted);
}

static void state_is(const char *what, uint32_t taken, uint32_t closed)
{
    same("state, taken", what, lead.state[0], taken);
    same("state, closed", what, lead.state[1], closed);
    same("buffer", what, memcmp(lead.sheet, lead.wanted, sizeof lead.sheet) == 0, 1);
}

static void take(const char *what, const uint8_t *piece, size_t len, uint32_t wanted)
{
    same("take", what, naxxurbi_serial_take(lead.state, lead.sheet, piece, len), wanted);
}

static void closing(const char *what, uint32_t answer, uint32_t place)
{
    uint32_t out[2] = {0xDEADBEEF, 0xDEADBEEF};
    naxxurbi_serial_close(lead.state, lead.sheet, out);
    same("close, answer", what, out[0], answer);
    same("close, place", what, out[1], place);
}

/* Every call after closing: 18, and nothing changes, neither state nor buffer. */
static void after_closing(const char *what)
{
    uint32_t taken = lead.state[0], closed = lead.state[1];
    take(what, w2.bytes, w2.len, CLOSED);
    state_is(what, taken, closed);
    take(what, NULL, 0, CLOSED);
    state_is(what, taken, closed);
    closing(what, CLOSED, 0);
    state_is(what, taken, closed);
    take(what, bytes, MILLION, CLOSED);
    closing(what, CLOSED, 0);
    state_is(what, taken, closed);
}

/* A sheet in three pieces, ending at i, at j and at its end; with every i and j, pieces of length 0 stand before, between and after. */
static void cuttings(const struct sheet *sheet, uint32_t answer, uint32_t place)
{
    for (size_t i = 0; i <= sheet->len; i++) {
        for (size_t j = i; j <= sheet->len; j++) {
            start(0, 0);
            memcpy(lead.wanted, sheet->bytes, sheet->len);
            take(sheet->name, sheet->bytes, i, 0);
            take(sheet->name, sheet->bytes + i, j - i, 0);
            take(sheet->name, sheet->bytes + j, sheet->len - j, 0);
            state_is(sheet->name, (uint32_t)sheet->len, 0);
            closing(sheet->name, answer, place);
            state_is(sheet->name, (uint32_t)sheet->len, 1);
            after_closing(sheet->name);
            row(sheet->name);
        }
    }
}

/* So many bytes in pieces of one size: up to 4,096 of them are judged, more are too many. */
static void long_sheet(const char *what, size_t len, size_t size, uint32_t answer, uint32_t place)
{
    start(0, 0);
    memcpy(lead.wanted, bytes, len < ROOM ? len : ROOM);
    for (size_t at = 0; at < len; at += size) {
        take(what, bytes + at, size < len - at ? size : len - at, 0);
    }
    take(what, NULL, 0, 0);
    state_is(what, len <= ROOM ? (uint32_t)len : ROOM + 1, 0);
    closing(what, answer, place);
    state_is(what, len <= ROOM ? (uint32_t)len : ROOM + 1, 1);
    after_closing(what);
    row(what);
}

/* Any two numbers may be handed in as state; there is one outcome for each. */
static void strange_states(void)
{
    static const uint32_t above[] = {4097, 5000, 0x80000000, 0xFFFFFFFF};
    for (size_t k = 0; k < sizeof above / sizeof above[0]; k++) {
        start(above[k], 0);
        take("a count above 4,096", w4.bytes, w4.len, 0);
        take("a count above 4,096", bytes, MILLION, 0);
        state_is("a count above 4,096", above[k], 0);
        closing("a count above 4,096", TOO_LONG, 0);
        state_is("a count above 4,096", above[k], 1);
        start(3, above[k]);
        after_closing("a mark above 1");
        row("a state that no lead made");
    }
    start(ROOM, 0);
    take("a full buffer", NULL, 0, 0);
    state_is("a full buffer", ROOM, 0);
    take("a full buffer", w4.bytes, 1, 0);
    state_is("a full buffer", ROOM + 1, 0);
    /* The count says that W4's first 4 bytes came; they stand in the buffer already. */
    start(4, 0);
    memcpy(lead.sheet, w4.bytes, 4);
    memcpy(lead.wanted, w4.bytes, w4.len);
    take("a count from elsewhere", w4.bytes + 4, w4.len - 4, 0);
    state_is("a count from elsewhere", (uint32_t)w4.len, 0);
    closing("a count from elsewhere", 0, 0);
    row("a count that no lead made");
}

/* As docs/GUIDE.md shows it: -1 where the lead itself fails, else the reader's or the checker's number. */
static int64_t check_over_lead(int fd, const uint8_t *states, size_t states_len, const uint8_t *words, size_t words_len)
{
    static uint8_t sheet[4096];
    uint32_t state[2] = {0, 0};
    uint32_t out[2];
    uint8_t piece[64];
    for (;;) {
        ssize_t got = read(fd, piece, sizeof piece);
        if (got < 0) {
            return -1;
        }
        if (got == 0) {
            break;
        }
        naxxurbi_serial_take(state, sheet, piece, (size_t)got);
    }
    naxxurbi_serial_close(state, sheet, out);
    if (out[0] != 0) {
        return out[0];
    }
    return naxxurbi_check_strikes(sheet, state[0], states, states_len, words, words_len);
}

/* What the guide's loop answers for these bytes, which go through a pipe `copies` times, and for W4's strike list. */
static int64_t over_a_pipe(const struct sheet *sheet, int copies)
{
    uint8_t states[8], words[8];
    int ends[2];
    write_states(states, (const naxxurbi_state[]){0, 1}, 2);
    write_words(words, (const uint32_t[]){33, 64}, 2);
    if (pipe(ends) != 0) {
        return -2;
    }
    for (int k = 0; k < copies; k++) {
        if (write(ends[1], sheet->bytes, sheet->len) != (ssize_t)sheet->len) {
            return -3;
        }
    }
    close(ends[1]);
    int64_t answer = check_over_lead(ends[0], states, sizeof states, words, sizeof words);
    close(ends[0]);
    return answer;
}

/* W4 with another version, with its last literal naming no letter, and with a byte too many. */
SHEET(version, "another version", 0x02, 0x00, 0x14, 0x01, 0x00, 0x01, 0x02, 0x01, 0x01, 0x01, 0x03, 0x01, 0x01, 0xFF, 0x03, 0x01, 0xFF, 0xFF,
      0x01, 0x01);
SHEET(literal, "a literal that names no letter", 0x01, 0x00, 0x14, 0x01, 0x00, 0x01, 0x02, 0x01, 0x01, 0x01, 0x03, 0x01, 0x01, 0xFF, 0x03, 0x01,
      0xFF, 0xFF, 0x01, 0x02);
SHEET(surplus, "a byte too many", 0x01, 0x00, 0x15, 0x01, 0x00, 0x01, 0x02, 0x01, 0x01, 0x01, 0x03, 0x01, 0x01, 0xFF, 0x03, 0x01, 0xFF, 0xFF,
      0x01, 0x01, 0x00);

int main(void)
{
    for (size_t k = 0; k < MILLION; k++) {
        bytes[k] = (uint8_t)(k * 7 + k / 251);
    }
    /* A header that says 4,096 bytes, and no record: the surplus begins at byte 8. */
    memcpy(bytes, (const uint8_t[]){0x01, 0x10, 0x00, 0x01, 0x00, 0x00, 0x00, 0x00}, 8);

    cuttings(&w4, 0, 0);
    cuttings(&w1, 0, 0);
    cuttings(&version, 2, 0);
    cuttings(&literal, 8, 19);
    cuttings(&surplus, 10, 20);
    long_sheet("nothing at all", 0, 1, TOO_LONG, 0);
    long_sheet("7 bytes", 7, 1, TOO_LONG, 0);
    long_sheet("4,095 bytes", 4095, 1, 3, 1);
    long_sheet("4,096 bytes, one by one", ROOM, 1, 10, 8);
    long_sheet("4,096 bytes at once", ROOM, ROOM, 10, 8);
    long_sheet("4,096 bytes by 100", ROOM, 100, 10, 8);
    long_sheet("4,097 bytes, one by one", ROOM + 1, 1, TOO_LONG, 0);
    long_sheet("4,097 bytes at once", ROOM + 1, ROOM + 1, TOO_LONG, 0);
    long_sheet("4,097 bytes by 4,096", ROOM + 1, ROOM, TOO_LONG, 0);
    long_sheet("a million bytes by 1,000", MILLION, 1000, TOO_LONG, 0);
    long_sheet("a million bytes by 4,093", MILLION, 4093, TOO_LONG, 0);
    long_sheet("a million bytes at once", MILLION, MILLION, TOO_LONG, 0);
    strange_states();
    expect("W4", "over a pipe", (uint32_t)over_a_pipe(&w4, 1), ACCEPTED);
    expect("W5", "over a pipe", (uint32_t)over_a_pipe(&w5, 1), NOT_ACCEPTED);
    expect("two sheets for one", "over a pipe", (uint32_t)over_a_pipe(&w4, 2), 3);
    expect("W4 300 times", "over a pipe", (uint32_t)over_a_pipe(&w4, 300), TOO_LONG);
    return report();
}
