/*
 * The worked example, from C: the 36/13 table is judged, saved, loaded, and played on a dispatcher. Prints a line for each answer.
 *
 * A radar gives a pulse every 36/13 ms, and its train runs for 12/13 ms. A second train comes every 72/13 ms, 12/13 ms later.
 */
#include <inttypes.h>
#include <stdint.h>
#include <stdio.h>
#include <stdlib.h>
#include <string.h>

#include "urzabelki.h"

#define TRAINS 2
#define ROW (URZABELKI_NUMBERS * TRAINS)

/* Phase, period and duration of each train in milliseconds, as numerator and denominator. */
static const uint32_t row[ROW] = {
    0, 1, 36, 13, 12, 13,
    12, 13, 72, 13, 12, 13,
};

/* Ends the program where a call was refused. What is refused has left all memory as it was. */
static void expect(const char *call, uint64_t answer)
{
    if (urzabelki_kind(answer) == URZABELKI_REFUSED) {
        fprintf(stderr, "%s: refusal %" PRIu32 " %" PRIu32 "\n", call, urzabelki_refusal(answer), urzabelki_value(answer));
        exit(1);
    }
}

/* The time whose numerator is `time[0]` and whose denominator is `time[1]`, in ticks of 1/`multiple` ms. It is a whole number. */
static uint32_t ticks(const uint32_t time[2], uint64_t multiple)
{
    return (uint32_t)(time[0] * multiple / time[1]);
}

/* Judges the row. Hands back L: the tick is 1/L ms. */
static uint64_t judge(void)
{
    uint64_t figures[URZABELKI_FIGURES] = {0};
    uint64_t answer = urzabelki_judge(row, ROW, figures);
    expect("judge", answer);
    if (urzabelki_kind(answer) != URZABELKI_ACCEPTED) {
        fprintf(stderr, "judge: trains %" PRIu64 " and %" PRIu64 " collide\n", figures[URZABELKI_FIRST], figures[URZABELKI_SECOND]);
        exit(1);
    }
    printf("accepted: the tick is 1/%" PRIu64 " ms; divisions: %" PRIu64 "\n", figures[URZABELKI_MULTIPLE], figures[URZABELKI_DIVISIONS]);
    return figures[URZABELKI_MULTIPLE];
}

/* Saves the row, and loads it again. */
static void store(void)
{
    uint8_t bytes[URZABELKI_LONGEST_STORED];
    uint32_t loaded[URZABELKI_LONGEST_ROW];
    uint64_t answer = urzabelki_save(row, ROW, bytes, sizeof bytes);
    expect("save", answer);
    uint32_t length = urzabelki_value(answer);
    printf("saved: %" PRIu32 " bytes\n", length);
    answer = urzabelki_load(bytes, length, loaded, URZABELKI_LONGEST_ROW);
    expect("load", answer);
    printf("loaded: %" PRIu32 " trains, %s\n", urzabelki_value(answer), memcmp(row, loaded, sizeof row) == 0 ? "as they were" : "other than they were");
}

/* Admits the trains of the row, with their phases as delays. */
static void admit(urzabelki_dispatcher *dispatcher, uint64_t multiple)
{
    for (int train = 0; train < TRAINS; train++) {
        const uint32_t *times = &row[URZABELKI_NUMBERS * train];
        uint32_t delay = ticks(&times[0], multiple);
        uint32_t period = ticks(&times[2], multiple);
        uint32_t duration = ticks(&times[4], multiple);
        uint64_t answer = urzabelki_admit(dispatcher, delay, period, duration);
        expect("admit", answer);
        printf("train %d (delay %" PRIu32 ", period %" PRIu32 ", duration %" PRIu32 "): place %" PRIu32 "\n", train, delay, period, duration,
               urzabelki_value(answer));
    }
}

/* One tick of the processor. */
static void step(urzabelki_dispatcher *dispatcher, uint32_t count)
{
    uint64_t answer = urzabelki_step(dispatcher, count);
    switch (urzabelki_kind(answer)) {
    case URZABELKI_IDLE:
        printf("tick %" PRIu32 ": idle\n", count);
        break;
    case URZABELKI_STARTS:
        printf("tick %" PRIu32 ": starts %" PRIu32 "\n", count, urzabelki_value(answer));
        break;
    case URZABELKI_GOES_ON:
        printf("tick %" PRIu32 ": goes on %" PRIu32 "\n", count, urzabelki_value(answer));
        break;
    default:
        expect("step", answer);
    }
}

int main(void)
{
    uint64_t multiple = judge();
    store();

    /* The dispatcher is this value. Its first step has the count after the one that is given here, which is 0: the count wraps. */
    urzabelki_dispatcher dispatcher;
    urzabelki_fresh(&dispatcher, UINT32_MAX);
    admit(&dispatcher, multiple);
    for (uint32_t count = 0; count < 26; count++) {
        step(&dispatcher, count);
    }

    /* What would collide is refused, with the place of the train that it would collide with; the dispatcher is as it was. */
    uint64_t answer = urzabelki_admit(&dispatcher, 0, 36, 12);
    if (urzabelki_refusal(answer) == URZABELKI_REFUSAL_COLLISION) {
        printf("admit (0, 36, 12): would collide with place %" PRIu32 "\n", urzabelki_value(answer));
    }

    /* A train can leave at any time, and its place is empty at once. */
    expect("withdraw", urzabelki_withdraw(&dispatcher, 1));
    printf("place 1: withdrawn\n");
    if (urzabelki_refusal(urzabelki_withdraw(&dispatcher, 1)) == URZABELKI_REFUSAL_NO_TRAIN_THERE) {
        printf("place 1 again: no train is there\n");
    }

    /* The count 26 was lost, so 27 is refused. The lost one is stepped first; what was to run in it was not run. */
    if (urzabelki_refusal(urzabelki_step(&dispatcher, 27)) == URZABELKI_REFUSAL_WRONG_COUNT) {
        printf("tick 27: not the next\n");
    }
    step(&dispatcher, 26);
    step(&dispatcher, 27);
    return 0;
}
