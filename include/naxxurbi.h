/*
 * Naxxurbi: a judge for rule sheets, two checkers for its papers, an auditor of recorded logs, and a finder of rules that fight.
 *
 * This file is all that a C or C++ programmer needs: what the calls take and answer, names for every answer and size, a sheet's bytes,
 * what a strike list's words mean, and what a caller owes. It is C99 and C++.
 *
 * The calls take any bytes and any numbers: none has a precondition, each returns, and each is proved to keep the promise that is stated
 * for it in crates/meaning/specs/Promises.antt (the audit: crates/audit_account/specs/Carry.antt; the serial lead:
 * crates/serial/specs/Serial.antt; a class: crates/class_ends/specs/Class.antt; which rules fight:
 * crates/clash_meaning/specs/Clash.antt). Of the pointers themselves C callers owe what is listed below.
 *
 * A sheet is 8 to 4,096 bytes: a header of 8, then the records; nothing stands between or after them.
 *
 *    byte 0     the version, 1
 *    bytes 1,2  the length of the whole sheet, the higher byte first
 *    byte 3     n, the number of letters, 1 to 24
 *    byte 4     the number of limits, 0 to 32
 *    byte 5     the number of first rules, 0 to 255
 *    byte 6     the number of step rules, 0 to 255
 *    byte 7     the number of promises, 0 to 16
 *
 * First all limits, then all first rules, all step rules, all promises; those of one kind are numbered from 1. A record begins with a
 * length byte, the number of bytes after it in the record. These are:
 *
 *    limit       kind, m, literals: kind 0: exactly m of them are true, at every moment; kind 1: at most m. m is any byte
 *    first rule  literals: at the first moment at least one of them is true
 *    step rule   a, then a literals, then others: whenever all of the first a are true, at the next moment at least one of the others is
 *    promise     one literal: it is true again and again, for ever
 *
 * A literal is one signed byte: k, from 1 to n, says that letter k holds, -k (written 256 - k) that it does not. In one list the literals
 * ascend, each once: -2 stands before -1 before 1. The two sides of a step rule are two lists. A step rule whose first list is empty
 * always asks; one whose second list is empty is never met, nor is a first rule of no literals.
 *
 * A state is a number below 2 to the power n: letter k holds in it when the bit worth 2 to the power k - 1 is set. On a paper, which
 * comes from outside, states and words are bytes, four to a number with the highest first; the judge's own slices, and the audit's
 * account and states, are plain numbers.
 *
 * A word of a strike list says when and why its state was struck: it is 32 times the round, counted from 1, plus the reason. Reason 0:
 * from the state there is no move to a state that is not struck yet. Reason i: promise i can no longer be kept from it.
 *
 * Nothing is kept between calls, and no memory is allocated. What the calls take for granted, and cannot check:
 *
 *    - the machine is the one that the archive was compiled for: x86-64 under Linux;
 *    - a pointer is valid for its length: so many bytes, or numbers of four bytes, can be read there, and in the judge's slices, in
 *      `out`, in `numbers`, in `account` and in `marks` also written. A pointer may be null where its length is 0; `out` has room for its
 *      numbers, five for the judge and two for naxxurbi_read_place, `account` for 515, `marks` for 255 bytes; a serial lead's `lead` has
 *      room for two and its sheet for 4,096 bytes; none of these is ever null;
 *    - a pointer to uint32_t or naxxurbi_state is aligned for it, to 4 bytes. Bytes may stand anywhere;
 *    - the judge's four slices and `out` lie apart: from one another, and from the sheet; so does naxxurbi_read_place's `out` from the sheet,
 *      the ends and the numbers of a class from all else, proposed rules and marks from all else, the account from the sheet and the states,
 *      and a serial lead's `lead`, sheet, piece and `out` from one another;
 *    - no slice has 2 to the power 63 bytes or more; for one of numbers, that is below 2 to the power 61 of them;
 *    - while a call runs, nobody else writes what it was given, nor reads what it may write;
 *    - the stack has room, as follows.
 *
 * Stack, in pages of 4,096 bytes: 256 for the judge, for a class and for the two calls about rules that fight, 4 for the strike checker, 4
 * for the audit, 2 for the run checker, 1 for the reader and for either call of the serial lead; what the caller and signal handlers take
 * comes on top.
 * host/c/stack.c runs each call on a fenced stack of just this size, on sheets of 24 letters that are judged to the end and on a bad one,
 * and prints what they take. As rattle-kit-13f compiles them for x86-64, the judge, a class, the strike checker, the audit, the run
 * checker and the reader take at most 1,031,856, 1,032,000, 14,329, 12,264, 6,957 and 108 bytes, naxxurbi_clash and naxxurbi_check_clash
 * 1,036,528 each. Of the audit's, 3,184 are the loader's, the first time that memcpy is called. The judge takes nearly as much for a bad
 * sheet (1,023,040 bytes), since its rooms have a fixed size.
 *
 * Link libnaxxurbi.a, which bin/install-naxxurbi makes and which has every call; a program takes in only the objects that it calls. Or
 * link the archives it is made of: libfirmware.a (both checkers), libjudge.a (naxxurbi_judge), libreader.a (naxxurbi_read,
 * naxxurbi_read_place), libaudit.a (naxxurbi_audit), libserial.a (the serial lead), libclass.a (naxxurbi_judge_class), libclash.a
 * (naxxurbi_check_clash, naxxurbi_clash); each stands alone.
 * Their code takes at most 15 KB, 30 KB, 2 KB, 8 KB, 3 KB, 30 KB and 34 KB (of 1,024 bytes); they have no data of
 * their own. The only outside functions that they call are memset and memcpy.
 *
 * Time. The run checker looks at each state once for each rule and promise. The strike checker counts, for the first states and for each
 * entry that asks for something new, the states that may come next, and stops once there are more than the list could hold. It settles
 * the letters one at a time, takes what a limit or a rule forces as settled, and drops what they rule out; a clash that shows only at the
 * last letters costs microseconds. What no look at single rules sees still costs a walk of 2 to the power n steps for each such entry.
 * Measured with that kit (docs/BENCHMARK.md, "odd clash", which names the processor), for one such walk of 24 letters: 0.1 s with 2
 * limits, 1.9 s with 32 limits and 255 rules; each letter less halves it. Firmware that takes papers from strangers should bound the
 * letters or the entries that it accepts. Repeated states are judged exactly; where many of them are next states they are counted by
 * marks, and else compared with the entries before.
 */
#ifndef NAXXURBI_H
#define NAXXURBI_H

#include <stddef.h>
#include <stdint.h>

#ifdef __cplusplus
extern "C" {
#endif

/* The version of the library that this header belongs to. */
#define NAXXURBI_VERSION "0.2.0"
#define NAXXURBI_VERSION_MAJOR 0
#define NAXXURBI_VERSION_MINOR 2
#define NAXXURBI_VERSION_PATCH 0

/* A state. Words, counts and answers are uint32_t whatever this is. */
typedef uint32_t naxxurbi_state;

/* What the calls answer. 0: a good sheet; a paper or a proposal accepted; the sheet can be kept; rules that fight are marked. */
#define NAXXURBI_OK 0

/*
 * 1 to 10: the sheet's first fault, in reading order; nothing lent is changed. In a record 6 comes before 7, and 7 before its literals;
 * of each literal 8 comes before 9. naxxurbi_read_place, naxxurbi_judge and naxxurbi_serial_close tell the fault's place as well, a byte
 * counted from 0; on every other answer the place is 0. Behind each fault stands its place.
 */
#define NAXXURBI_BAD_SIZE 1     /* fewer than 8 or more than 4,096 bytes: place 0 */
#define NAXXURBI_BAD_VERSION 2  /* the version is not 1: place 0 */
#define NAXXURBI_BAD_LENGTH 3   /* the stated length is not the sheet's length: place 1 */
#define NAXXURBI_BAD_LETTERS 4  /* the number of letters is not 1 to 24: place 3 */
#define NAXXURBI_BAD_COUNT 5    /* over 32 limits: place 4; or else over 16 promises: place 7 */
#define NAXXURBI_BAD_RECORD 6   /* a record is missing or goes past the end: its length byte, or the sheet's length where that is missing */
#define NAXXURBI_BAD_SHAPE 7    /* a limit under 2 bytes or of a kind over 1, a step rule of no bytes or with a larger than what follows, a
                                   promise that is not one byte: the record's length byte */
#define NAXXURBI_BAD_LITERAL 8  /* a literal is 0 or names a letter that the sheet does not have: the literal's byte */
#define NAXXURBI_BAD_ORDER 9    /* a literal does not come after the one before it in its list: the literal's byte */
#define NAXXURBI_BAD_END 10     /* bytes are left after the last record: the first of them */
#define NAXXURBI_LAST_FAULT 10  /* answers from NAXXURBI_BAD_SIZE to this one are faults of the sheet */

#define NAXXURBI_TOO_MANY_STATES 11   /* the judge: more reachable states than there is room for */
#define NAXXURBI_SHORT_RUN 12         /* the judge: the sheet can be kept, but the run slice is too short; b says how long it must be.
                                         naxxurbi_clash, which is lent no run: the sheet can be kept */
#define NAXXURBI_CANNOT_BE_KEPT 13    /* the judge: no endless run obeys the sheet */
#define NAXXURBI_NOT_ACCEPTED 14      /* the checkers and naxxurbi_check_clash: the paper, or the proposal, is not accepted */
#define NAXXURBI_TOO_MANY_MOMENTS 15  /* the audit: the account, or the account with this piece, is past 1,000,000 moments */
#define NAXXURBI_CLASS_REFUSED 16     /* naxxurbi_judge_class: the ends, the sheets or the slice do not fit; nothing is changed */
#define NAXXURBI_TRIAL_TOO_LARGE 17   /* the calls about rules that fight: a sheet that was tried has more states than there is room for */
#define NAXXURBI_CLOSED 18            /* the serial lead: it is closed already; nothing is changed */

/* What a sheet can have at most, and at least in bytes. */
#define NAXXURBI_LEAST_BYTES 8
#define NAXXURBI_BYTES 4096
#define NAXXURBI_LETTERS 24
#define NAXXURBI_LIMITS 32
#define NAXXURBI_FIRST_RULES 255
#define NAXXURBI_RULES 255 /* step rules; also how many marks naxxurbi_clash writes */
#define NAXXURBI_PROMISES 16

/* What to lend to the judge for every sheet that it can take in: so many numbers for table and words, for scratch, for run. */
#define NAXXURBI_STATES 16384
#define NAXXURBI_SCRATCH 32768
#define NAXXURBI_RUN 262144

/* The judge's five numbers, and the reader's two, where each stands in `out`. */
#define NAXXURBI_NUMBERS 5
#define NAXXURBI_ANSWER 0
#define NAXXURBI_COUNT 1
#define NAXXURBI_A 2
#define NAXXURBI_B 3
#define NAXXURBI_PLACE 4
#define NAXXURBI_READ_NUMBERS 2
#define NAXXURBI_READ_PLACE 1

/* A strike list's word: 32 times the round plus the reason; reason 0 is "no way on", reason i "promise i". */
#define NAXXURBI_REASONS 32
#define NAXXURBI_WORD(round, reason) (NAXXURBI_REASONS * (round) + (reason))
#define NAXXURBI_ROUND(word) ((word) / NAXXURBI_REASONS)
#define NAXXURBI_REASON(word) ((word) % NAXXURBI_REASONS)

/* How many bytes a state and a word take on a paper, the highest first. */
#define NAXXURBI_STATE_BYTES 4
#define NAXXURBI_WORD_BYTES 4

/* The audit's account: its numbers and where each stands, the tallies of step rule r at KEPT + r and BROKEN + r; the most moments. */
#define NAXXURBI_ACCOUNT 515
#define NAXXURBI_ACCOUNT_MOMENTS 0
#define NAXXURBI_ACCOUNT_LAST 1
#define NAXXURBI_ACCOUNT_BREACH 2
#define NAXXURBI_ACCOUNT_BREACH_MOMENT 3
#define NAXXURBI_ACCOUNT_BREACH_RULE 4
#define NAXXURBI_ACCOUNT_KEPT 4
#define NAXXURBI_ACCOUNT_BROKEN 259
#define NAXXURBI_MOMENTS 1000000

/* What the first breach of a log was. */
#define NAXXURBI_NO_BREACH 0
#define NAXXURBI_UNLAWFUL 1
#define NAXXURBI_BROKE_FIRST_RULE 2
#define NAXXURBI_BROKE_STEP_RULE 3

/* The most sheets in one call of naxxurbi_judge_class, and how many numbers each gets: answer, count, a and b. */
#define NAXXURBI_CLASS_SHEETS 32
#define NAXXURBI_CLASS_NUMBERS 4

/* How many numbers a caller keeps for a serial lead. */
#define NAXXURBI_LEAD 2

/* Reads a sheet: 0 if it is good, else the number of its first fault, 1 to 10. */
uint32_t naxxurbi_read(const uint8_t *sheet, size_t sheet_len);

/* The same with the place: out[0] is the number, out[1] the place. Both are written for every sheet. */
void naxxurbi_read_place(const uint8_t *sheet, size_t sheet_len, uint32_t out[NAXXURBI_READ_NUMBERS]);

/*
 * A sheet that comes over a serial lead, a few bytes at a time. The caller keeps two numbers, 0 and 0 at first, and lends a buffer of 4,096
 * bytes; what it holds beforehand does not matter.
 *
 * lead[0] is how many bytes have come, where 4,097 stands for any number above 4,096; lead[1] is 0 while the lead is open, else it is
 * closed. Any two numbers may be handed in.
 *
 * Takes a piece, which may be empty: 0, and its bytes stand in the buffer behind those that came. What goes past the buffer's end is not
 * stored. After closing 18, and nothing is changed.
 */
uint32_t naxxurbi_serial_take(uint32_t lead[NAXXURBI_LEAD], uint8_t sheet[NAXXURBI_BYTES], const uint8_t *piece, size_t piece_len);

/*
 * Closes the lead. out[0] is the reader's answer for all the bytes that came, joined: 0 if they are a good sheet (then they are the first
 * lead[0] bytes of the buffer, which the checkers and the judge take), else the number of its first fault, 1 for more than 4,096 bytes;
 * out[1] is the place of that fault, the byte where it was met, counted from 0; 0 for a good sheet. How the bytes were cut into pieces plays
 * no part. lead[1] is then 1. After closing 18, place 0, and nothing else is changed.
 */
void naxxurbi_serial_close(uint32_t lead[NAXXURBI_LEAD], const uint8_t sheet[NAXXURBI_BYTES], uint32_t out[NAXXURBI_READ_NUMBERS]);

/*
 * Checks a proposed run: states_len / 4 states, each four bytes with the highest first, read from the first to the last and then from
 * state a on again, for ever. 0 exactly if that endless run obeys the sheet (and a is the number of a state on the paper, counted from
 * 0); else 14, also where states_len is not a multiple of 4; a bad sheet's 1 to 10 come first. Changes nothing.
 */
uint32_t naxxurbi_check_run(const uint8_t *sheet, size_t sheet_len, const uint8_t *states, size_t states_len, uint32_t a);

/*
 * Checks a proposed strike list: states and words, each four bytes with the highest first, as many words as states. If the answer is 0,
 * no endless run obeys the sheet. Every strike list of the judge is accepted. Else 14; a bad sheet's 1 to 10 come first. Changes nothing.
 */
uint32_t naxxurbi_check_strikes(const uint8_t *sheet, size_t sheet_len, const uint8_t *states, size_t states_len, const uint8_t *words,
                                size_t words_len);

/*
 * Judges a sheet: is there an endless run that obeys it?
 *
 * The caller lends four slices of numbers; what they hold beforehand does not matter. Let C be the least of table_len, words_len, half of
 * scratch_len (rounded down) and 16,384: C is how many reachable states there is room for. Lengths count numbers, not bytes.
 *
 * out[0] is the answer, out[1] the count, out[2] a, out[3] b, out[4] the place; those not named here are 0. All five are written on every
 * answer. (Before the place came, out had four numbers. Nothing was released in that form.)
 *
 *    0        can be kept. count: how many states occur in some obeying run; table: those states, ascending, then zeros. run: the first b
 *             places hold a sample run, which goes on from its last state to state a, counted from 0; the rest of run is unchanged.
 *             words and scratch: zeros. The run, as bytes, is accepted by naxxurbi_check_run with this a.
 *    1 .. 10  the sheet's first fault, and its place; the four slices are unchanged
 *   11        more than C states are reachable. table, words and scratch: zeros; run: unchanged. Lend more, up to 16,384 states (table and
 *             words 16,384, scratch 32,768).
 *   12        can be kept, but run_len is below b, which is given and never above 262,144. table, words and scratch: zeros; run:
 *             unchanged. Lend b and call again.
 *   13        cannot be kept. count: how many states are reachable; table and words: a strike list of so many entries, then zeros.
 *             scratch: zeros; run: unchanged. The list, as bytes, is accepted by naxxurbi_check_strikes.
 */
void naxxurbi_judge(const uint8_t *sheet, size_t sheet_len, naxxurbi_state *table, size_t table_len, uint32_t *words, size_t words_len,
                    naxxurbi_state *scratch, size_t scratch_len, naxxurbi_state *run, size_t run_len, uint32_t out[NAXXURBI_NUMBERS]);

/*
 * Audits a log: holds the states that a monitor recorded against a sheet, some at a time. The caller keeps an account of 515 numbers, all 0
 * before the first piece, and hands it in with each piece of the log, the same sheet each time. Moments are counted from 0 by order of
 * arrival. However the log is cut, the account ends the same.
 *
 *    account[0]         how many moments there were
 *    account[1]         the last state; 0 while there was none
 *    account[2]         what the first breach was: 0 none yet, 1 the state was unlawful (a number of 2 to the power n or more, or a limit that
 *                       does not hold), 2 the log's first state broke a first rule, 3 the move into the state broke a step rule
 *    account[3]         the moment of the first breach
 *    account[4]         the step rule that it broke, the first in the sheet, counted from 1; 0 where it was no step rule
 *    account[4 + r]     how many moves kept step rule r, its left side having been true before the move; r from 1 to 255
 *    account[259 + r]   how many moves broke step rule r
 *
 * The tallies go on after a breach, also out of and into unlawful states. Promises are not judged on a log. 0 and the account carried on; a
 * bad sheet's 1 to 10; 15 where account[0], with the states of this piece, or any tally is past 1,000,000. On 1 to 15 the account is
 * unchanged. Any 515 numbers may be handed in; an empty piece then changes none of them.
 */
uint32_t naxxurbi_audit(const uint8_t *sheet, size_t sheet_len, uint32_t account[NAXXURBI_ACCOUNT], const naxxurbi_state *states,
                        size_t states_len);

/*
 * Judges a whole class: ends_len sheets, joined in `sheets`. Sheet i, counted from 0, is the bytes from the end before it (0 for the first)
 * up to ends[i]. Two equal ends make an empty sheet, which gets 1.
 *
 * 16, and nothing is changed, where an end is below the one before it or above sheets_len, where the last end is not sheets_len, where there
 * are no ends for some input, where ends_len is above 32, or where numbers_len is below 4 * ends_len. No sheet is judged then.
 *
 * Otherwise 0. numbers[4 * i] to numbers[4 * i + 3] are answer, count, a and b of sheet i; the places after the last sheet's are unchanged.
 * These and the four slices are as if naxxurbi_judge had been called for each sheet in turn with the same slices: what a sheet gets does not
 * depend on its neighbours, and the slices hold what the last good sheet left. No ends and no input: 0, and nothing is changed. It takes
 * the judge's stack and 160 bytes more.
 */
uint32_t naxxurbi_judge_class(const uint8_t *sheets, size_t sheets_len, const uint32_t *ends, size_t ends_len, naxxurbi_state *table,
                              size_t table_len, uint32_t *words, size_t words_len, naxxurbi_state *scratch, size_t scratch_len,
                              naxxurbi_state *run, size_t run_len, uint32_t *numbers, size_t numbers_len);

/*
 * Which rules fight: step rules of a sheet, counted from 1, such that with only these, and with all limits, first rules and promises, no
 * endless run obeys, and with any single one of them left out one does. Table, words and scratch are lent as to the judge, and C is the same.
 *
 * Checks proposed rules: rules_len numbers, which may be none. Tried are the sheet with these step rules alone and, for each of them, that
 * sheet without it; each is judged with the lent slices and no room for a run.
 *
 *    0        these rules fight: the judge's answer is 13, and with each single one left out 12
 *    1 .. 10  the sheet's first fault; the slices are unchanged
 *   14        numbers that do not rise strictly, or are not from 1 to the number of the sheet's step rules: the slices are unchanged, and this
 *             comes before 17. Or these rules do not fight: they can be kept, or one of them can be spared
 *   17        for one of these sheets the judge's answer is 11, whatever it is for the others: more than C states are reachable. Leaving a
 *             rule out can make more states reachable. With C at least 2 to the power n there is always room
 *
 * After 0, 17 and the second kind of 14 the slices hold zeros. It judges one sheet more than there are rules.
 */
uint32_t naxxurbi_check_clash(const uint8_t *sheet, size_t sheet_len, const uint32_t *rules, size_t rules_len, naxxurbi_state *table,
                              size_t table_len, uint32_t *words, size_t words_len, naxxurbi_state *scratch, size_t scratch_len);

/*
 * Proposes rules that fight. From the last step rule to the first, each is dropped where the sheet still cannot be kept without it; then the
 * choice that is left is tried with each rule left out.
 *
 *    0        the whole sheet cannot be kept, and the rules with mark 1 fight: naxxurbi_check_clash accepts them with slices of the same
 *             lengths. Where limits, first rules and promises clash by themselves, no rule is marked
 *    1 .. 10  the sheet's first fault; the slices are unchanged
 *   12        the whole sheet can be kept
 *   17        of a sheet that was tried, the whole one included, more than C states are reachable
 *
 * marks[i] is for rule i + 1: 1 if it is chosen, else 0. All 255 are written on every answer, and are 0 on every answer but 0. After 0, 12 and
 * 17 the slices hold zeros. Of m step rules it judges at most 1 + 2 * m sheets, each in the judge's time for that sheet.
 */
uint32_t naxxurbi_clash(const uint8_t *sheet, size_t sheet_len, naxxurbi_state *table, size_t table_len, uint32_t *words, size_t words_len,
                        naxxurbi_state *scratch, size_t scratch_len, uint8_t marks[NAXXURBI_RULES]);

#ifdef __cplusplus
}
#endif

#endif
