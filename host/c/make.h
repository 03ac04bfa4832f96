/*
 * Sheets that are made, not written down: those of the stack's and the boundary's tests. A sheet is made in `made`, of `made_len` bytes.
 */
#ifndef MAKE_H
#define MAKE_H

#include <stddef.h>
#include <stdint.h>

#include "naxxurbi.h"

enum { ALL_LETTERS = NAXXURBI_LETTERS, MOST_PROMISES = NAXXURBI_PROMISES, MOST_BYTES = NAXXURBI_BYTES };

static uint8_t made[MOST_BYTES + 1];
static size_t made_len;

static inline void byte(uint32_t value)
{
    made[made_len++] = (uint8_t)value;
}

/* A header; the length is set by `end`. */
static inline void begin(uint32_t letters, uint32_t limits, uint32_t firsts, uint32_t steps, uint32_t promises)
{
    const uint32_t header[] = {1, 0, 0, letters, limits, firsts, steps, promises};
    made_len = 0;
    for (size_t i = 0; i < sizeof header / sizeof header[0]; i++) {
        byte(header[i]);
    }
}

/* States the sheet's length. */
static inline void state_length(void)
{
    made[1] = (uint8_t)(made_len >> 8);
    made[2] = (uint8_t)made_len;
}

/* The promises, all of them that letter 1 holds; and the sheet's length. */
static inline void end(uint32_t promises)
{
    for (uint32_t i = 0; i < promises; i++) {
        byte(1);
        byte(1);
    }
    state_length();
}

/* A limit: exactly `bound` of the letters from `low` to `high`. */
static inline void exactly(uint32_t bound, uint32_t low, uint32_t high)
{
    byte(high - low + 3);
    byte(0);
    byte(bound);
    for (uint32_t letter = low; letter <= high; letter++) {
        byte(letter);
    }
}

/* Exactly `bound` of all letters, and no other rule: every such state is livable. */
static inline void make_exactly(uint32_t letters, uint32_t bound, uint32_t promises)
{
    begin(letters, 1, 0, 0, promises);
    exactly(bound, 1, letters);
    end(promises);
}

/* Exactly `bound` of all letters and exactly one fewer: no state. No look at one limit by itself sees that, so a walk goes down to the last. */
static inline void make_at_odds(uint32_t letters, uint32_t bound)
{
    begin(letters, 2, 0, 0, 0);
    exactly(bound, 1, letters);
    exactly(bound - 1, 1, letters);
    end(0);
}

/* Exactly one of letter 1 and its opposite, which every state meets: no letter is known until it is settled, the most that a walk takes of a stack. */
static inline void make_met(uint32_t letters)
{
    begin(letters, 1, 0, 0, 0);
    byte(4);
    byte(0);
    byte(1);
    byte(255);
    byte(1);
    end(0);
}

/* No rules at all. */
static inline void make_free(uint32_t letters, uint32_t promises)
{
    begin(letters, 0, 0, 0, promises);
    end(promises);
}

/* A step rule with both sides empty, and no other rule: no state has a way on. */
static inline void make_dead(uint32_t letters)
{
    begin(letters, 0, 0, 1, 0);
    byte(1);
    byte(0);
    end(0);
}

/* No letter holds at first, and no other rule. */
static inline void make_none_first(uint32_t letters, uint32_t promises)
{
    begin(letters, 0, letters, 0, promises);
    for (uint32_t letter = 1; letter <= letters; letter++) {
        byte(1);
        byte(256 - letter);
    }
    end(promises);
}

/*
 * Exactly one of 24 letters holds, the first at first, and each leads to the next: the last to the first (a ring), or nowhere (a chain).
 * Said over and over, in 255 step rules; 16 promises.
 */
static inline void make_ring(int closed)
{
    enum { RULES = NAXXURBI_RULES };
    begin(ALL_LETTERS, 1, 1, RULES, MOST_PROMISES);
    exactly(1, 1, ALL_LETTERS);
    byte(1);
    byte(1);
    for (uint32_t rule = 0; rule < RULES; rule++) {
        uint32_t letter = rule % ALL_LETTERS + 1;
        int leads = closed || letter < ALL_LETTERS;
        byte(leads ? 3 : 2);
        byte(1);
        byte(letter);
        if (leads) {
            byte(letter % ALL_LETTERS + 1);
        }
    }
    end(MOST_PROMISES);
}

/*
 * Three wheels of 8 letters each, on each of which exactly one holds: 512 states. The first wheel turns at every move, the others turn or
 * stay, so a state has at most 4 next states. The first wheel's last letter leads to its first, or nowhere. 16 promises.
 */
static inline void make_wheels(int closed)
{
    enum { WHEEL = 8 };
    begin(ALL_LETTERS, 3, 0, ALL_LETTERS, MOST_PROMISES);
    for (uint32_t low = 1; low < ALL_LETTERS; low += WHEEL) {
        exactly(1, low, low + WHEEL - 1);
    }
    for (uint32_t letter = 1; letter <= ALL_LETTERS; letter++) {
        uint32_t next = letter % WHEEL == 0 ? letter - WHEEL + 1 : letter + 1, low = letter < next ? letter : next;
        int stays = letter > WHEEL, turns = closed || letter != WHEEL;
        byte(2 + (uint32_t)stays + (uint32_t)turns);
        byte(1);
        byte(letter);
        if (stays) {
            byte(low);
        }
        if (turns) {
            byte(stays ? letter + next - low : next);
        }
    }
    end(MOST_PROMISES);
}

/* A first rule of so many literals, from -24 on: of more than 24, one is true in every state. */
static inline void first_rule(uint32_t literals)
{
    byte(literals);
    for (uint32_t i = 0; i < literals; i++) {
        byte(i < ALL_LETTERS ? 256 - ALL_LETTERS + i : i - ALL_LETTERS + 1);
    }
}

/* A good sheet of exactly 4,096 bytes: exactly one of 24 letters, and first rules that ask for nothing. */
static inline void make_longest(void)
{
    enum { LONG = 82, LITERALS = 48, LAST = 42 };
    begin(ALL_LETTERS, 1, LONG + 1, 0, 0);
    exactly(1, 1, ALL_LETTERS);
    for (int i = 0; i < LONG; i++) {
        first_rule(LITERALS);
    }
    first_rule(LAST);
    end(0);
}

#endif
