/*
 * What the C tests share: sheets as bytes, states and words as the bytes that the checkers read, and a count of what passed.
 */
#ifndef TEST_H
#define TEST_H

#include <stddef.h>
#include <stdint.h>
#include <stdio.h>
#include <string.h>

#include "naxxurbi.h"

/* What the checkers answer. */
enum { ACCEPTED = NAXXURBI_OK, NOT_ACCEPTED = NAXXURBI_NOT_ACCEPTED };

struct sheet {
    const char *name;
    const uint8_t *bytes;
    size_t len;
};

/* SHEET(w1, "W1", 1, 0, 8, ..) defines the sheet w1 with these bytes. */
#define SHEET(ident, name, ...)                          \
    static const uint8_t ident##_bytes[] = {__VA_ARGS__}; \
    static const struct sheet ident = {name, ident##_bytes, sizeof ident##_bytes}

static int passed;
static int failed;

/* One test: prints what went wrong, if anything did. */
static void expect(const char *sheet, const char *what, uint32_t got, uint32_t wanted)
{
    if (got == wanted) {
        passed++;
        return;
    }
    failed++;
    printf("%s, %s: got %lu, wanted %lu\n", sheet, what, (unsigned long)got, (unsigned long)wanted);
}

/* Writes a number as so many bytes, the highest first. */
static inline void write_number(uint8_t *bytes, uint64_t number, size_t len)
{
    for (size_t i = 0; i < len; i++) {
        bytes[i] = (uint8_t)(number >> (8 * (len - 1 - i)));
    }
}

/* The number at place i of a slice of states or of words, so many bytes each. */
static inline uint64_t number_at(const void *slice, size_t i, size_t width)
{
    uint32_t word;
    naxxurbi_state state;
    if (width == sizeof word) {
        memcpy(&word, (const uint8_t *)slice + width * i, sizeof word);
        return word;
    }
    memcpy(&state, (const uint8_t *)slice + width * i, sizeof state);
    return state;
}

/* Writes a paper's states as bytes; gives back how many bytes. */
static inline size_t write_states(uint8_t *bytes, const naxxurbi_state *states, size_t count)
{
    for (size_t i = 0; i < count; i++) {
        write_number(bytes + NAXXURBI_STATE_BYTES * i, states[i], NAXXURBI_STATE_BYTES);
    }
    return NAXXURBI_STATE_BYTES * count;
}

/* Writes a strike list's words as bytes; gives back how many bytes. */
static inline size_t write_words(uint8_t *bytes, const uint32_t *words, size_t count)
{
    for (size_t i = 0; i < count; i++) {
        write_number(bytes + NAXXURBI_WORD_BYTES * i, words[i], NAXXURBI_WORD_BYTES);
    }
    return NAXXURBI_WORD_BYTES * count;
}

/* The last line, and the exit status. */
static int report(void)
{
    printf("%d passed, %d failed\n", passed, failed);
    return failed > 0;
}

/* The wall's sheets. W7 to W12 have two letters. */
SHEET(w1, "W1", 0x01, 0x00, 0x08, 0x01, 0x00, 0x00, 0x00, 0x00);
SHEET(w2, "W2", 0x01, 0x00, 0x0A, 0x01, 0x00, 0x00, 0x00, 0x01, 0x01, 0x01);
SHEET(w3, "W3", 0x01, 0x00, 0x0C, 0x01, 0x00, 0x00, 0x00, 0x02, 0x01, 0x01, 0x01, 0xFF);
SHEET(w4, "W4", 0x01, 0x00, 0x14, 0x01, 0x00, 0x01, 0x02, 0x01, 0x01, 0x01, 0x03, 0x01, 0x01, 0xFF, 0x03, 0x01, 0xFF, 0xFF, 0x01, 0x01);
SHEET(w5, "W5", 0x01, 0x00, 0x0A, 0x01, 0x00, 0x00, 0x01, 0x00, 0x01, 0x00);
SHEET(w6, "W6", 0x01, 0x00, 0x0C, 0x01, 0x01, 0x00, 0x00, 0x00, 0x03, 0x00, 0x02, 0x01);
SHEET(w15, "W15", 0x01, 0x00, 0x50, 0x0F, 0x07, 0x03, 0x05, 0x00,
      /* each robot exactly one of its three */
      0x05, 0x00, 0x01, 0x01, 0x06, 0x0B, 0x05, 0x00, 0x01, 0x02, 0x07, 0x0C, 0x05, 0x00, 0x01, 0x03, 0x08, 0x0D,
      0x05, 0x00, 0x01, 0x04, 0x09, 0x0E, 0x05, 0x00, 0x01, 0x05, 0x0A, 0x0F,
      /* exactly 3 work, at most 2 recharge */
      0x07, 0x00, 0x03, 0x01, 0x02, 0x03, 0x04, 0x05, 0x07, 0x01, 0x02, 0x0B, 0x0C, 0x0D, 0x0E, 0x0F,
      /* 1, 2, 3 work first; work leads to recharge */
      0x01, 0x01, 0x01, 0x02, 0x01, 0x03,
      0x03, 0x01, 0x01, 0x0B, 0x03, 0x01, 0x02, 0x0C, 0x03, 0x01, 0x03, 0x0D, 0x03, 0x01, 0x04, 0x0E, 0x03, 0x01, 0x05, 0x0F);

#endif
