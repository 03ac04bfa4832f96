/*
 * The guide's sheets, as the guide tells them: the files in examples/ are judged, their papers compared and checked, and the walks of the
 * three mistakes refused. `guide FOLDER` reads the sheets in that folder.
 */
#include <stdlib.h>
#include <string.h>

#include "naxxurbi.h"
#include "test.h"

enum { NUMBERS = NAXXURBI_NUMBERS, MOST = 11, LENT = 64, CANNOT = NAXXURBI_CANNOT_BE_KEPT };

/* A sheet, the five numbers, and the paper: the run's states, or the strike list's states and words. */
struct told {
    const char *file;
    uint32_t out[NUMBERS];
    size_t count;
    naxxurbi_state states[MOST];
    uint32_t words[MOST];
};

static const struct told sheets[] = {
    {"clock", {CANNOT, 4, 0, 0, 0}, 4, {9, 11, 5, 7}, {32, 32, 33, 33}},
    {"clock-mended", {0, 6, 3, 4, 0}, 4, {7, 9, 3, 1}, {0}},
    {"mistake-1",
     {CANNOT, 11, 0, 0, 0},
     11,
     {10, 9, 8, 7, 6, 5, 4, 3, 2, 1, 0},
     {32, 64, 96, 128, 160, 192, 224, 256, 288, 320, 352}},
    {"mistake-2", {CANNOT, 2, 0, 0, 0}, 2, {7, 11}, {33, 33}},
    {"mistake-3", {0, 4, 1, 2, 0}, 2, {1, 3}, {0}},
    {"mistake-3-misread", {CANNOT, 1, 0, 0, 0}, 1, {1}, {32}},
};

/* Walks that look like runs. */
struct walk {
    const char *file;
    const char *what;
    size_t count;
    naxxurbi_state states[MOST];
    uint32_t a;
};

static const struct walk walks[] = {
    {"mistake-1", "ten good moves, then back to the first state", 11, {0, 1, 2, 3, 4, 5, 6, 7, 8, 9, 10}, 0},
    {"mistake-1", "ten good moves, then staying", 11, {0, 1, 2, 3, 4, 5, 6, 7, 8, 9, 10}, 10},
    {"mistake-2", "the file's closing put off for ever", 2, {7, 11}, 0},
    {"mistake-2", "staying, the file open", 1, {7}, 0},
    {"mistake-3-misread", "what at most two allows", 2, {1, 3}, 1},
};

static uint8_t sheet[NAXXURBI_BYTES + 1];
static size_t sheet_len;

/* Reads FOLDER/FILE.sheet. */
static void open_sheet(const char *folder, const char *file)
{
    char path[4096];
    FILE *input;
    snprintf(path, sizeof path, "%s/%s.sheet", folder, file);
    input = fopen(path, "rb");
    if (input == NULL) {
        printf("cannot open %s\n", path);
        exit(2);
    }
    sheet_len = fread(sheet, 1, sizeof sheet, input);
    fclose(input);
}

/* Judges one sheet and has its paper checked. */
static void as_told(const struct told *told)
{
    naxxurbi_state table[LENT], scratch[2 * LENT], run[LENT];
    uint32_t words[LENT], out[NUMBERS];
    uint8_t paper[NAXXURBI_STATE_BYTES * LENT], marks[NAXXURBI_WORD_BYTES * LENT];
    int cannot = told->out[NAXXURBI_ANSWER] == CANNOT;
    naxxurbi_judge(sheet, sheet_len, table, LENT, words, LENT, scratch, (size_t)2 * LENT, run, LENT, out);
    for (size_t field = 0; field < NUMBERS; field++) {
        expect(told->file, "judged", out[field], told->out[field]);
    }
    size_t len = write_states(paper, told->states, told->count), marks_len = write_words(marks, told->words, told->count);
    expect(told->file, "states", memcmp(cannot ? table : run, told->states, told->count * sizeof table[0]) == 0, 1);
    if (cannot) {
        expect(told->file, "words", memcmp(words, told->words, told->count * sizeof words[0]) == 0, 1);
        expect(told->file, "list", naxxurbi_check_strikes(sheet, sheet_len, paper, len, marks, marks_len), ACCEPTED);
    } else {
        expect(told->file, "run", naxxurbi_check_run(sheet, sheet_len, paper, len, out[NAXXURBI_A]), ACCEPTED);
    }
}

int main(int argc, char **argv)
{
    const char *folder = argc > 1 ? argv[1] : "../examples";
    for (size_t i = 0; i < sizeof sheets / sizeof sheets[0]; i++) {
        open_sheet(folder, sheets[i].file);
        as_told(&sheets[i]);
    }
    for (size_t i = 0; i < sizeof walks / sizeof walks[0]; i++) {
        uint8_t paper[NAXXURBI_STATE_BYTES * MOST];
        size_t len = write_states(paper, walks[i].states, walks[i].count);
        open_sheet(folder, walks[i].file);
        expect(walks[i].file, walks[i].what, naxxurbi_check_run(sheet, sheet_len, paper, len, walks[i].a), NOT_ACCEPTED);
    }
    return report();
}
