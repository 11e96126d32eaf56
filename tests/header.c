/*
 * The numbers of include/urzabelki.h are the library's: each is enough, and one more or one less is not the same. Each kind is answered
 * once, and each refusal is provoked once. Prints what does not hold, and hands back 1 where anything does not.
 */
#include <stdint.h>
#include <stdio.h>
#include <string.h>

#include "urzabelki.h"

/* Rows and files here are longer than any that the library takes. */
#define ROOM 2000

static int failed = 0;

static void holds(const char *what, int so)
{
    if (!so) {
        printf("tests/header.c: %s\n", what);
        failed = 1;
    }
}

/* An answer that is no refusal. */
static void answers(const char *what, uint64_t answer, uint32_t kind, uint32_t value)
{
    holds(what, urzabelki_kind(answer) == kind && urzabelki_refusal(answer) == 0 && urzabelki_value(answer) == value);
}

/* A refusal. */
static void refuses(const char *what, uint64_t answer, uint32_t number, uint32_t value)
{
    holds(what, urzabelki_kind(answer) == URZABELKI_REFUSED && urzabelki_refusal(answer) == number && urzabelki_value(answer) == value);
}

/* Puts a train at the end of a row of `length` numbers: its times have one denominator. The new length. */
static size_t put(uint32_t *row, size_t length, uint32_t phase, uint32_t period, uint32_t duration, uint32_t denominator)
{
    const uint32_t train[6] = {phase, denominator, period, denominator, duration, denominator};
    memcpy(&row[length], train, sizeof train);
    return length + 6;
}

/* A row of trains (i, 64, 1), which do not collide as long as they are 64. Its length. */
static size_t fill(uint32_t *row, uint32_t trains)
{
    size_t length = 0;
    for (uint32_t i = 0; i < trains; i++) {
        length = put(row, length, i, 64, 1, 1);
    }
    return length;
}

/* The verdict on one train, whose times have one denominator. */
static uint64_t judged(uint32_t phase, uint32_t period, uint32_t duration, uint32_t denominator)
{
    uint32_t row[6];
    uint64_t figures[ROOM];
    return urzabelki_judge(row, put(row, 0, phase, period, duration, denominator), figures);
}

/* A table has so many trains, of so many numbers each, and its row has so many numbers. */
static void rows(void)
{
    static uint32_t row[ROOM];
    static uint8_t bytes[ROOM];
    uint64_t figures[ROOM];
    answers("URZABELKI_TRAINS are judged", urzabelki_judge(row, fill(row, URZABELKI_TRAINS), figures), URZABELKI_ACCEPTED, 0);
    refuses("and not one more", urzabelki_judge(row, fill(row, URZABELKI_TRAINS + 1), figures), URZABELKI_REFUSAL_TRAIN_COUNT,
            URZABELKI_NO_PLACE);
    answers("URZABELKI_LONGEST_ROW is judged", urzabelki_judge(row, URZABELKI_LONGEST_ROW, figures), URZABELKI_ACCEPTED, 0);
    refuses("and none with one train more", urzabelki_judge(row, URZABELKI_LONGEST_ROW + 6, figures), URZABELKI_REFUSAL_TRAIN_COUNT,
            URZABELKI_NO_PLACE);
    answers("URZABELKI_NUMBERS are one train", urzabelki_save(row, URZABELKI_NUMBERS, bytes, ROOM), URZABELKI_DONE, 7 + 24);
    refuses("and one less is none", urzabelki_save(row, URZABELKI_NUMBERS - 1, bytes, ROOM), URZABELKI_REFUSAL_TRAIN_COUNT, URZABELKI_NO_PLACE);
}

/* The longest stored table has so many bytes, and loading it takes the longest row. */
static void stored(void)
{
    static uint32_t row[ROOM];
    static uint8_t bytes[ROOM];
    size_t length = fill(row, 64);
    answers("URZABELKI_LONGEST_STORED", urzabelki_save(row, length, bytes, URZABELKI_LONGEST_STORED), URZABELKI_DONE, URZABELKI_LONGEST_STORED);
    refuses("and one byte less is too short", urzabelki_save(row, length, bytes, URZABELKI_LONGEST_STORED - 1),
            URZABELKI_REFUSAL_BUFFER_TOO_SHORT, URZABELKI_NO_PLACE);
    answers("URZABELKI_LONGEST_ROW", urzabelki_load(bytes, URZABELKI_LONGEST_STORED, row, URZABELKI_LONGEST_ROW), URZABELKI_DONE, URZABELKI_TRAINS);
    refuses("and one number less is too short", urzabelki_load(bytes, URZABELKI_LONGEST_STORED, row, URZABELKI_LONGEST_ROW - 1),
            URZABELKI_REFUSAL_BUFFER_TOO_SHORT, URZABELKI_NO_PLACE);
}

/* L and times have these limits, in a table and in an admission. */
static void limits(void)
{
    urzabelki_dispatcher dispatcher;
    answers("URZABELKI_MAX_MULTIPLE", judged(0, 1, 1, URZABELKI_MAX_MULTIPLE), URZABELKI_ACCEPTED, 0);
    refuses("and no finer tick", judged(0, 1, 1, URZABELKI_MAX_MULTIPLE + 1), URZABELKI_REFUSAL_TICK_TOO_FINE, 0);
    answers("URZABELKI_MAX_TICKS", judged(URZABELKI_MAX_TICKS, URZABELKI_MAX_TICKS, URZABELKI_MAX_TICKS, 1), URZABELKI_ACCEPTED, 0);
    refuses("and no longer phase", judged(URZABELKI_MAX_TICKS + 1, 1, 1, 1), URZABELKI_REFUSAL_TIME_TOO_LONG, 0);
    refuses("and no longer period", judged(0, URZABELKI_MAX_TICKS + 1, 1, 1), URZABELKI_REFUSAL_TIME_TOO_LONG, 0);
    urzabelki_fresh(&dispatcher, 0);
    refuses("no longer delay is admitted", urzabelki_admit(&dispatcher, URZABELKI_MAX_TICKS + 1, 1, 1), URZABELKI_REFUSAL_NOT_A_TRAIN,
            URZABELKI_NO_PLACE);
    refuses("no longer period is admitted", urzabelki_admit(&dispatcher, 0, URZABELKI_MAX_TICKS + 1, 1), URZABELKI_REFUSAL_NOT_A_TRAIN,
            URZABELKI_NO_PLACE);
    answers("the longest train is admitted", urzabelki_admit(&dispatcher, URZABELKI_MAX_TICKS, URZABELKI_MAX_TICKS, URZABELKI_MAX_TICKS),
            URZABELKI_DONE, 0);
}

/*
 * The longest line is that of a collision of trains 10 and 11 at a tick of 14 digits, with L = 1000000 and a division count of five
 * digits: ten trains start on even ticks and the others on odd ones, and the two periods take 31 divisions.
 */
static void line(void)
{
    static uint32_t row[ROOM];
    static uint8_t bytes[ROOM];
    static uint8_t text[ROOM];
    const char longest[] = "collide 10 11 19715446056913 1000000 16651\n";
    size_t length = 0;
    for (uint32_t i = 0; i < 64; i++) {
        length = i < 10    ? put(row, length, 2 * i, 4356618, 1, 1000000)
                 : i == 11 ? put(row, length, 3, 9999998, 1, 1000000)
                           : put(row, length, 1, 7049156, 1, 1000000);
    }
    answers("URZABELKI_LONGEST_LINE", urzabelki_line(row, length, text, URZABELKI_LONGEST_LINE), URZABELKI_DONE, URZABELKI_LONGEST_LINE);
    holds("it is the longest line", memcmp(text, longest, strlen(longest)) == 0);
    refuses("and one byte less is too short", urzabelki_line(row, length, text, URZABELKI_LONGEST_LINE - 1),
            URZABELKI_REFUSAL_BUFFER_TOO_SHORT, URZABELKI_NO_PLACE);
    length = urzabelki_value(urzabelki_save(row, length, bytes, ROOM));
    answers("it is so of the stored table", urzabelki_line_stored(bytes, length, text, URZABELKI_LONGEST_LINE), URZABELKI_DONE,
            URZABELKI_LONGEST_LINE);
    refuses("and one byte less is too short for it", urzabelki_line_stored(bytes, length, text, URZABELKI_LONGEST_LINE - 1),
            URZABELKI_REFUSAL_BUFFER_TOO_SHORT, URZABELKI_NO_PLACE);
}

/* A verdict writes so many figures, and each has its place: collide 1 2 17 7 5. */
static void figures(void)
{
    uint32_t row[18];
    uint64_t figures[ROOM];
    size_t length = put(row, put(row, put(row, 0, 0, 8, 1, 7), 1, 8, 2, 7), 5, 12, 2, 7);
    memset(figures, 0xA5, sizeof figures);
    uint64_t untouched = figures[0];
    answers("trains 1 and 2 collide", urzabelki_judge(row, length, figures), URZABELKI_COLLIDE, 0);
    holds("URZABELKI_FIGURES are written", figures[URZABELKI_FIGURES - 1] != untouched);
    holds("and not one more", figures[URZABELKI_FIGURES] == untouched);
    holds("URZABELKI_MULTIPLE", figures[URZABELKI_MULTIPLE] == 7);
    holds("URZABELKI_DIVISIONS", figures[URZABELKI_DIVISIONS] == 5);
    holds("URZABELKI_FIRST", figures[URZABELKI_FIRST] == 1);
    holds("URZABELKI_SECOND", figures[URZABELKI_SECOND] == 2);
    holds("URZABELKI_TICK", figures[URZABELKI_TICK] == 17);
}

/* A dispatcher has so many words and so many places. */
static void dispatcher(void)
{
    union {
        urzabelki_dispatcher dispatcher;
        uint32_t words[ROOM];
    } lent;
    memset(&lent, 0xA5, sizeof lent);
    uint32_t untouched = lent.words[0];
    urzabelki_fresh(&lent.dispatcher, 0);
    holds("URZABELKI_WORDS are written", lent.words[URZABELKI_WORDS - 1] == 0);
    holds("and not one more", lent.words[URZABELKI_WORDS] == untouched);
    holds("a dispatcher is its words", sizeof(urzabelki_dispatcher) == URZABELKI_WORDS * sizeof(uint32_t));
    for (uint32_t i = 0; i < URZABELKI_PLACES; i++) {
        answers("URZABELKI_PLACES are there", urzabelki_admit(&lent.dispatcher, i, 128, 1), URZABELKI_DONE, i);
    }
    refuses("and not one more", urzabelki_admit(&lent.dispatcher, 100, 128, 1), URZABELKI_REFUSAL_NO_EMPTY_PLACE, URZABELKI_NO_PLACE);
    refuses("no place above is emptied", urzabelki_withdraw(&lent.dispatcher, URZABELKI_PLACES), URZABELKI_REFUSAL_NO_TRAIN_THERE,
            URZABELKI_NO_PLACE);
    answers("the last place is emptied", urzabelki_withdraw(&lent.dispatcher, URZABELKI_PLACES - 1), URZABELKI_DONE, 0);
}

/* The verdict on a stored table of two trains with the byte at `index` changed; 0 leaves the mark, `S`, as it is. */
static uint64_t stored_with(size_t index, uint8_t byte, size_t length)
{
    uint32_t row[12];
    uint8_t bytes[ROOM];
    uint64_t figures[ROOM];
    memset(bytes, 0, sizeof bytes);
    answers("two trains are saved", urzabelki_save(row, put(row, put(row, 0, 0, 8, 2, 1), 3, 12, 1, 1), bytes, ROOM), URZABELKI_DONE, 55);
    bytes[index] = byte;
    return urzabelki_judge_stored(bytes, length, figures);
}

/* Each refusal of a table, with the train that it names. Those of a row that is too long, a tick and a time are above. */
static void table_refusals(void)
{
    refuses("a denominator of 0", judged(0, 1, 1, 0), URZABELKI_REFUSAL_ZERO_DENOMINATOR, 0);
    refuses("a period of 0", judged(0, 0, 1, 1), URZABELKI_REFUSAL_ZERO_TIME, 0);
    refuses("a duration above its period", judged(0, 1, 2, 1), URZABELKI_REFUSAL_DURATION_ABOVE_PERIOD, 0);
    answers("a stored table as it was saved", stored_with(0, 'S', 55), URZABELKI_ACCEPTED, 0);
    refuses("another mark", stored_with(2, 'S', 55), URZABELKI_REFUSAL_WRONG_MARK, URZABELKI_NO_PLACE);
    refuses("another version", stored_with(4, 2, 55), URZABELKI_REFUSAL_WRONG_VERSION, URZABELKI_NO_PLACE);
    refuses("more trains than a table has", stored_with(6, 65, 55), URZABELKI_REFUSAL_TRAIN_COUNT, URZABELKI_NO_PLACE);
    refuses("a byte too many", stored_with(0, 'S', 56), URZABELKI_REFUSAL_WRONG_LENGTH, URZABELKI_NO_PLACE);
    refuses("too few for a head", stored_with(0, 'S', 6), URZABELKI_REFUSAL_WRONG_LENGTH, URZABELKI_NO_PLACE);
    refuses("a period of 12/3 at train 1", stored_with(46, 3, 55), URZABELKI_REFUSAL_NOT_LOWEST_TERMS, 1);
}

/* Each kind of a step, and the refusals of a dispatcher that are left. */
static void steps(void)
{
    urzabelki_dispatcher dispatcher;
    urzabelki_fresh(&dispatcher, UINT32_MAX);
    answers("a train is admitted", urzabelki_admit(&dispatcher, 0, 8, 2), URZABELKI_DONE, 0);
    answers("and another", urzabelki_admit(&dispatcher, 3, 12, 1), URZABELKI_DONE, 1);
    refuses("one would collide", urzabelki_admit(&dispatcher, 11, 24, 5), URZABELKI_REFUSAL_COLLISION, 1);
    answers("the first starts after the wrap", urzabelki_step(&dispatcher, 0), URZABELKI_STARTS, 0);
    answers("and goes on", urzabelki_step(&dispatcher, 1), URZABELKI_GOES_ON, 0);
    answers("then nothing runs", urzabelki_step(&dispatcher, 2), URZABELKI_IDLE, 0);
    refuses("a count is left out", urzabelki_step(&dispatcher, 4), URZABELKI_REFUSAL_WRONG_COUNT, URZABELKI_NO_PLACE);
    answers("the other starts", urzabelki_step(&dispatcher, 3), URZABELKI_STARTS, 1);
}

/* A listing of so many trains, the last record of which is the given text. Its length. */
static size_t list(uint8_t *text, uint32_t trains, const char *last)
{
    size_t length = (size_t)sprintf((char *)text, "phase,period,duration\r\n");
    for (uint32_t i = 0; i < trains; i++) {
        length += (size_t)sprintf((char *)&text[length], "%u,64,1\r\n", i);
    }
    return length + (size_t)sprintf((char *)&text[length], "%s", last);
}

/* The longest listing that is imported, the longest that is exported, and the refusals of both. */
static void listings(void)
{
    static uint8_t text[URZABELKI_LONGEST_TEXT + 1];
    static uint32_t row[ROOM];
    size_t length = 0;
    /* leading zeros make one number as long as there is room for */
    memset(text, '0', sizeof text);
    memcpy(text, "phase,period,duration\r\n", 23);
    memcpy(&text[URZABELKI_LONGEST_TEXT - 5], "1,1\r\n", 5);
    memcpy(&text[URZABELKI_LONGEST_TEXT - 9], "7,00", 4);
    answers("the longest listing is imported", urzabelki_import(text, URZABELKI_LONGEST_TEXT, row, ROOM), URZABELKI_DONE, 1);
    refuses("and not one byte more", urzabelki_import(text, URZABELKI_LONGEST_TEXT + 1, row, ROOM), URZABELKI_REFUSAL_TEXT_TOO_LONG,
            URZABELKI_NO_PLACE);
    refuses("an empty listing", urzabelki_import(text, 0, row, ROOM), URZABELKI_REFUSAL_BAD_RECORD, 1);
    answers("64 trains are imported", urzabelki_import(text, list(text, 64, ""), row, URZABELKI_LONGEST_ROW), URZABELKI_DONE, 64);
    refuses("and not one more", urzabelki_import(text, list(text, 64, "0,1,1"), row, ROOM), URZABELKI_REFUSAL_TRAIN_COUNT, URZABELKI_NO_PLACE);
    refuses("a bad record behind them", urzabelki_import(text, list(text, 70, "0;1;1"), row, ROOM), URZABELKI_REFUSAL_BAD_RECORD, 72);
    refuses("a period of 0", urzabelki_import(text, list(text, 3, "0,0,1"), row, ROOM), URZABELKI_REFUSAL_ZERO_TIME, 3);
    refuses("a duration above its period", urzabelki_import(text, list(text, 2, "0,1,3/2"), row, ROOM), URZABELKI_REFUSAL_DURATION_ABOVE_PERIOD, 2);
    for (uint32_t i = 0; i < 64 * 3; i++) {
        row[2 * i] = UINT32_MAX;
        row[2 * i + 1] = UINT32_MAX - 1;
        length += 2;
    }
    answers("the longest listing is exported", urzabelki_export(row, length, text, URZABELKI_LONGEST_EXPORT), URZABELKI_DONE,
            URZABELKI_LONGEST_EXPORT);
    refuses("and not with one byte less", urzabelki_export(row, length, text, URZABELKI_LONGEST_EXPORT - 1),
            URZABELKI_REFUSAL_BUFFER_TOO_SHORT, URZABELKI_NO_PLACE);
    refuses("a row of no whole number of trains", urzabelki_export(row, 7, text, sizeof text), URZABELKI_REFUSAL_TRAIN_COUNT, URZABELKI_NO_PLACE);
    row[9] = 0;
    refuses("a denominator of 0 at train 1", urzabelki_export(row, 12, text, sizeof text), URZABELKI_REFUSAL_ZERO_DENOMINATOR, 1);
}

int main(void)
{
    rows();
    stored();
    listings();
    limits();
    line();
    figures();
    dispatcher();
    table_refusals();
    steps();
    return failed;
}
