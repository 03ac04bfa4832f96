/*
 * Calls every exported function of the installed library once: reads W4, judges it, has the strike list checked, has W1's run checked, asks for
 * the place of a bad sheet's fault, audits a log of one state, takes W4 over a serial lead, judges it as a class of one, asks which of its rules
 * fight and has that checked. host/launch/run compiles it with the flags of the installed naxxurbi.pc. Prints the answers.
 */
#include <stdio.h>

#include <naxxurbi.h>

static const uint8_t w1[] = {0x01, 0x00, 0x08, 0x01, 0x00, 0x00, 0x00, 0x00};
static const uint8_t w4[] = {0x01, 0x00, 0x14, 0x01, 0x00, 0x01, 0x02, 0x01, 0x01, 0x01,
                             0x03, 0x01, 0x01, 0xFF, 0x03, 0x01, 0xFF, 0xFF, 0x01, 0x01};
static const uint8_t states[] = {0, 0, 0, 0, 0, 0, 0, 1}, words[] = {0, 0, 0, 33, 0, 0, 0, 64}, run[] = {0, 0, 0, 0};
/* A limit with a literal twice: 9, in byte 12. */
static const uint8_t bad[] = {0x01, 0x00, 0x0D, 0x01, 0x01, 0x00, 0x00, 0x00, 0x04, 0x01, 0x01, 0x01, 0x01};

int main(void) {
    naxxurbi_state table[2], scratch[4], sample[4], log[] = {0};
    uint32_t marks[2], out[NAXXURBI_NUMBERS], fault[NAXXURBI_READ_NUMBERS];
    naxxurbi_judge(w4, sizeof w4, table, 2, marks, 2, scratch, 4, sample, 4, out);
    naxxurbi_read_place(bad, sizeof bad, fault);
    uint32_t account[NAXXURBI_ACCOUNT] = {0}, lead[NAXXURBI_LEAD] = {0, 0}, closed[NAXXURBI_READ_NUMBERS];
    uint32_t ends[] = {sizeof w4}, numbers[NAXXURBI_CLASS_NUMBERS];
    const uint32_t rules[] = {1, 2};
    uint8_t sheet[NAXXURBI_BYTES], fighting[NAXXURBI_RULES];
    unsigned audited = (unsigned)naxxurbi_audit(w1, sizeof w1, account, log, 1);
    unsigned taken = (unsigned)naxxurbi_serial_take(lead, sheet, w4, sizeof w4);
    naxxurbi_serial_close(lead, sheet, closed);
    unsigned judged = (unsigned)naxxurbi_judge_class(w4, sizeof w4, ends, 1, table, 2, marks, 2, scratch, 4, sample, 4, numbers, 4);
    unsigned planned = (unsigned)naxxurbi_clash(w4, sizeof w4, table, 2, marks, 2, scratch, 4, fighting);
    unsigned checked = (unsigned)naxxurbi_check_clash(w4, sizeof w4, rules, 2, table, 2, marks, 2, scratch, 4);
    printf("read %u, judge %u %u, strikes %u, run %u, fault %u at %u, ", (unsigned)naxxurbi_read(w4, sizeof w4),
           (unsigned)out[NAXXURBI_ANSWER], (unsigned)out[NAXXURBI_COUNT],
           (unsigned)naxxurbi_check_strikes(w4, sizeof w4, states, sizeof states, words, sizeof words),
           (unsigned)naxxurbi_check_run(w1, sizeof w1, run, sizeof run, 0), (unsigned)fault[0], (unsigned)fault[1]);
    printf("audit %u %u, serial %u %u at %u, class %u %u %u, ", audited, (unsigned)account[NAXXURBI_ACCOUNT_MOMENTS], taken,
           (unsigned)closed[0], (unsigned)closed[1], judged, (unsigned)numbers[0], (unsigned)numbers[1]);
    printf("clash %u %u %u %u, checked %u\n", planned, (unsigned)fighting[0], (unsigned)fighting[1], (unsigned)fighting[2], checked);
    return 0;
}
