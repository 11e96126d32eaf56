/*
 * Every function of include/urzabelki.h is called, from C and from C++: this file is compiled as both. Prints what is not answered or
 * written as it should be, and hands back 1 where anything is not. With SHORT_ARRAY it hands over a dispatcher of too few words, and
 * then it may not compile.
 */
#include <stdint.h>
#include <stdio.h>
#include <string.h>

#include "urzabelki.h"

/* What memory holds that no call has written to. */
#define UNTOUCHED 0xA5

static int failed = 0;

static void holds(const char *what, int so)
{
    if (!so) {
        printf("tests/calls.c: %s\n", what);
        failed = 1;
    }
}

/* An answer that is no refusal. */
static void answers(const char *what, uint64_t answer, uint32_t kind, uint32_t value)
{
    holds(what, urzabelki_kind(answer) == kind && urzabelki_refusal(answer) == 0 && urzabelki_value(answer) == value);
}

/* A refusal. */
static void refuses(const char *what, uint64_t answer, uint32_t number, uint32_t value)
{
    holds(what, urzabelki_kind(answer) == URZABELKI_REFUSED && urzabelki_refusal(answer) == number && urzabelki_value(answer) == value);
}

/* Numbers are taken apart as the library puts them together: 24 bits, 8 bits and 32 bits. */
static void numbers(void)
{
    const uint64_t answer = 0xABCDEF1234567890;
    holds("the refusal's number is the first 24 bits", urzabelki_refusal(answer) == 0xABCDEF);
    holds("the kind is the next 8 bits", urzabelki_kind(answer) == 0x12);
    holds("the value is the last 32 bits", urzabelki_value(answer) == 0x34567890);
    holds("zeros are no good answer", urzabelki_kind(0) == URZABELKI_REFUSED);
}

static void judges(void)
{
    const uint32_t accepted[12] = {0, 1, 8, 1, 2, 1, 3, 1, 12, 1, 1, 1};
    const uint32_t collide[12] = {0, 1, 8, 1, 2, 1, 3, 1, 12, 1, 2, 1};
    const uint32_t refused[6] = {0, 1, 3, 1, 10, 3};
    const uint64_t five[URZABELKI_FIGURES] = {1, 2, 0, 1, 16};
    uint64_t figures[URZABELKI_FIGURES] = {7, 7, 7, 7, 7};
    refuses("judge (0, 3, 10/3)", urzabelki_judge(refused, 6, figures), URZABELKI_REFUSAL_DURATION_ABOVE_PERIOD, 0);
    holds("a refused table has no figures", figures[0] == 7 && figures[1] == 7 && figures[2] == 7 && figures[3] == 7 && figures[4] == 7);
    answers("judge (0,8,2) (3,12,1)", urzabelki_judge(accepted, 12, figures), URZABELKI_ACCEPTED, 0);
    holds("accept 1 2", figures[0] == 1 && figures[1] == 2 && figures[2] == 7 && figures[3] == 7 && figures[4] == 7);
    answers("judge (0,8,2) (3,12,2)", urzabelki_judge(collide, 12, figures), URZABELKI_COLLIDE, 0);
    holds("collide 0 1 16 1 2", memcmp(figures, five, sizeof five) == 0);
}

static void prints(void)
{
    const uint32_t row[12] = {0, 1, 8, 1, 2, 1, 3, 1, 12, 1, 2, 1};
    const char line[] = "collide 0 1 16 1 2\n";
    uint8_t text[URZABELKI_LONGEST_LINE];
    memset(text, UNTOUCHED, sizeof text);
    refuses("line with 18 bytes of room", urzabelki_line(row, 12, text, 18), URZABELKI_REFUSAL_BUFFER_TOO_SHORT, URZABELKI_NO_PLACE);
    holds("a refused line is not written", text[0] == UNTOUCHED);
    answers("line (0,8,2) (3,12,2)", urzabelki_line(row, 12, text, sizeof text), URZABELKI_DONE, 19);
    holds("the line is written, and no byte behind it", memcmp(text, line, 19) == 0 && text[19] == UNTOUCHED);
}

/* The 36/13 table is saved, judged and printed as it is stored, and loaded. */
static void stores(void)
{
    const uint32_t row[12] = {0, 13, 36, 13, 12, 13, 12, 13, 72, 13, 12, 13};
    const uint32_t lowest[12] = {0, 1, 36, 13, 12, 13, 12, 13, 72, 13, 12, 13};
    const uint8_t head[7] = {'S', 'T', 'T', 0, 1, 0, 2};
    uint8_t bytes[56];
    uint8_t text[URZABELKI_LONGEST_LINE];
    uint32_t loaded[13];
    uint64_t figures[URZABELKI_FIGURES];
    memset(bytes, UNTOUCHED, sizeof bytes);
    memset(loaded, UNTOUCHED, sizeof loaded);
    refuses("save with 54 bytes of room", urzabelki_save(row, 12, bytes, 54), URZABELKI_REFUSAL_BUFFER_TOO_SHORT, URZABELKI_NO_PLACE);
    holds("a refused table is not saved", bytes[0] == UNTOUCHED);
    answers("save", urzabelki_save(row, 12, bytes, sizeof bytes), URZABELKI_DONE, 55);
    holds("it is written, and no byte behind it", memcmp(bytes, head, 7) == 0 && bytes[54] == 13 && bytes[55] == UNTOUCHED);
    answers("judge what is stored", urzabelki_judge_stored(bytes, 55, figures), URZABELKI_ACCEPTED, 0);
    holds("accept 13 1", figures[URZABELKI_MULTIPLE] == 13 && figures[URZABELKI_DIVISIONS] == 1);
    answers("its line", urzabelki_line_stored(bytes, 55, text, sizeof text), URZABELKI_DONE, 12);
    holds("accept 13 1, printed", memcmp(text, "accept 13 1\n", 12) == 0);
    refuses("load with room for 11", urzabelki_load(bytes, 55, loaded, 11), URZABELKI_REFUSAL_BUFFER_TOO_SHORT, URZABELKI_NO_PLACE);
    holds("a refused table is not loaded", loaded[0] == 0xA5A5A5A5);
    answers("load", urzabelki_load(bytes, 55, loaded, 13), URZABELKI_DONE, 2);
    holds("it is in lowest terms, and no number behind it", memcmp(loaded, lowest, sizeof lowest) == 0 && loaded[12] == 0xA5A5A5A5);
    bytes[0] = 's';
    refuses("judge another mark", urzabelki_judge_stored(bytes, 55, figures), URZABELKI_REFUSAL_WRONG_MARK, URZABELKI_NO_PLACE);
    answers("print another mark", urzabelki_line_stored(bytes, 55, text, sizeof text), URZABELKI_DONE, 12);
    holds("refuse 9 64", memcmp(text, "refuse 9 64\n", 12) == 0);
}

/* The 36/13 table is exported as a listing, and imported again. */
static void lists(void)
{
    const uint32_t row[12] = {0, 13, 36, 13, 12, 13, 12, 13, 72, 13, 24, 26};
    const uint32_t lowest[12] = {0, 1, 36, 13, 12, 13, 12, 13, 72, 13, 12, 13};
    const char listing[] = "phase,period,duration\r\n0,36/13,12/13\r\n12/13,72/13,12/13\r\n";
    const size_t length = sizeof listing - 1;
    uint8_t text[URZABELKI_LONGEST_EXPORT];
    uint32_t imported[13];
    memset(text, UNTOUCHED, sizeof text);
    memset(imported, UNTOUCHED, sizeof imported);
    refuses("export with a byte of room too little", urzabelki_export(row, 12, text, length - 1), URZABELKI_REFUSAL_BUFFER_TOO_SHORT,
            URZABELKI_NO_PLACE);
    holds("a refused listing is not exported", text[0] == UNTOUCHED);
    answers("export", urzabelki_export(row, 12, text, sizeof text), URZABELKI_DONE, (uint32_t)length);
    holds("the listing is written, and no byte behind it", memcmp(text, listing, length) == 0 && text[length] == UNTOUCHED);
    refuses("import with room for 11", urzabelki_import(text, length, imported, 11), URZABELKI_REFUSAL_BUFFER_TOO_SHORT, URZABELKI_NO_PLACE);
    holds("a refused listing is not imported", imported[0] == 0xA5A5A5A5);
    answers("import", urzabelki_import(text, length, imported, 13), URZABELKI_DONE, 2);
    holds("it is in lowest terms, and no number behind it", memcmp(imported, lowest, sizeof lowest) == 0 && imported[12] == 0xA5A5A5A5);
    text[30] = ';';
    refuses("import a bad record", urzabelki_import(text, length, imported, 13), URZABELKI_REFUSAL_BAD_RECORD, 2);
}

/* The calls of the bench sheet, and some more. */
static void dispatches(void)
{
    urzabelki_dispatcher dispatcher, before;
    urzabelki_fresh(&dispatcher, UINT32_MAX);
    answers("admit (0,8,2)", urzabelki_admit(&dispatcher, 0, 8, 2), URZABELKI_DONE, 0);
    answers("admit (3,12,1)", urzabelki_admit(&dispatcher, 3, 12, 1), URZABELKI_DONE, 1);
    answers("step 0", urzabelki_step(&dispatcher, 0), URZABELKI_STARTS, 0);
    before = dispatcher;
    refuses("admit (0,4,1)", urzabelki_admit(&dispatcher, 0, 4, 1), URZABELKI_REFUSAL_COLLISION, 0);
    refuses("withdraw 2", urzabelki_withdraw(&dispatcher, 2), URZABELKI_REFUSAL_NO_TRAIN_THERE, URZABELKI_NO_PLACE);
    refuses("step 2", urzabelki_step(&dispatcher, 2), URZABELKI_REFUSAL_WRONG_COUNT, URZABELKI_NO_PLACE);
    holds("refused calls change nothing", memcmp(&before, &dispatcher, sizeof before) == 0);
    answers("admit (1,4,1)", urzabelki_admit(&dispatcher, 1, 4, 1), URZABELKI_DONE, 2);
    answers("step 1", urzabelki_step(&dispatcher, 1), URZABELKI_GOES_ON, 0);
    answers("the train at place 2 starts", urzabelki_step(&dispatcher, 2), URZABELKI_STARTS, 2);
    answers("the train at place 1 starts", urzabelki_step(&dispatcher, 3), URZABELKI_STARTS, 1);
    answers("step 4", urzabelki_step(&dispatcher, 4), URZABELKI_IDLE, 0);
    answers("step 5", urzabelki_step(&dispatcher, 5), URZABELKI_IDLE, 0);
    answers("withdraw 2 now", urzabelki_withdraw(&dispatcher, 2), URZABELKI_DONE, 0);
    answers("step 6 is idle without it", urzabelki_step(&dispatcher, 6), URZABELKI_IDLE, 0);
}

#ifdef SHORT_ARRAY
static void too_short(void)
{
    uint32_t words[URZABELKI_WORDS - 1];
    urzabelki_fresh(words, 0);
}
#endif

int main(void)
{
    numbers();
    judges();
    prints();
    stores();
    lists();
    dispatches();
#ifdef SHORT_ARRAY
    too_short();
#endif
    return failed;
}
