/*
 * Urzabelki for programs in C and C++: the proved calls as functions, in libbench.a, which is for x86-64 Linux.
 *
 * Trains share one processor. A train has a phase, which is the time of its first start, a period and a duration, and it holds the
 * processor for its duration from the start of each period on. All times are whole ticks.
 *
 * LOOK FIRST AT THE KIND. Every function but urzabelki_fresh hands back one number, which holds three: urzabelki_kind,
 * urzabelki_refusal and urzabelki_value below take it apart. The kind is URZABELKI_REFUSED exactly when the call was refused, and
 * exactly then urzabelki_refusal is not 0 and says why, so either test is safe. A refused call writes nothing. A number of zeros is
 * a refusal by its kind, and so is no good answer of any call.
 *
 * No function asks anything of its arguments but that a pointer is not null, even where the length beside it is 0, that it points
 * to as many elements as that length or the array's size says, and that memory which is written overlaps no other argument. Any
 * length and any content is answered. No function allocates, and none keeps anything from one call to the next.
 */
#ifndef URZABELKI_H
#define URZABELKI_H

#include <stddef.h>
#include <stdint.h>

#ifdef __cplusplus
extern "C" {
#endif

/* The kinds of all answers. No number stands for two of them. */
enum urzabelki_kinds {
    URZABELKI_REFUSED = 0, /* any call: it was refused, and wrote nothing */
    URZABELKI_DONE = 1, /* line, save, load, import, export, admit, withdraw: it was done */
    URZABELKI_ACCEPTED = 2, /* judge: no tick is ever claimed by two trains */
    URZABELKI_COLLIDE = 3, /* judge: two trains claim a tick together */
    URZABELKI_IDLE = 4, /* step: nothing runs in this tick */
    URZABELKI_STARTS = 5, /* step: the train at the place that is the value starts in this tick */
    URZABELKI_GOES_ON = 6, /* step: the run of the train at the place that is the value goes on in this tick */
};

/*
 * The refusals by number. The value of 2, 3, 4, 5, 6 and 12 is the train that is at fault, counted from 0; the value of 15 is a place; the
 * value of 18 is the record of the listing, counted from 1, which may be above 64; the value of the others is URZABELKI_NO_PLACE.
 */
enum urzabelki_refusals {
    URZABELKI_REFUSAL_TRAIN_COUNT = 1, /* a row is not six numbers a train, or a table has more than 64 trains */
    URZABELKI_REFUSAL_ZERO_DENOMINATOR = 2, /* the denominator of a time is 0 */
    URZABELKI_REFUSAL_ZERO_TIME = 3, /* a period or a duration is 0 */
    URZABELKI_REFUSAL_DURATION_ABOVE_PERIOD = 4, /* a duration is longer than its period */
    URZABELKI_REFUSAL_TICK_TOO_FINE = 5, /* with this train the common tick of 1/L ms becomes too fine: L is above 1000000 */
    URZABELKI_REFUSAL_TIME_TOO_LONG = 6, /* a phase, a period or a duration is longer than 10000000 ticks of 1/L ms */
    URZABELKI_REFUSAL_TEXT_TOO_LONG = 7, /* a listing has more than 32768 bytes */
    URZABELKI_REFUSAL_BUFFER_TOO_SHORT = 8, /* the memory that is lent for the result is too short for it */
    URZABELKI_REFUSAL_WRONG_MARK = 9, /* a stored table does not begin with the letters STT */
    URZABELKI_REFUSAL_WRONG_VERSION = 10, /* a stored table is of another version than 1 */
    URZABELKI_REFUSAL_WRONG_LENGTH = 11, /* a stored table has fewer than 7 bytes, or not just as many as its count of trains says */
    URZABELKI_REFUSAL_NOT_LOWEST_TERMS = 12, /* a stored time is a fraction that is not in lowest terms */
    URZABELKI_REFUSAL_NOT_A_TRAIN = 13, /* a period or a duration is 0, a duration is longer than its period, or a period or a delay is longer than 10000000 ticks */
    URZABELKI_REFUSAL_NO_EMPTY_PLACE = 14, /* all 64 places hold a train */
    URZABELKI_REFUSAL_COLLISION = 15, /* the train would some day claim a tick together with the train at this place */
    URZABELKI_REFUSAL_NO_TRAIN_THERE = 16, /* the place is empty, or there is no such place */
    URZABELKI_REFUSAL_WRONG_COUNT = 17, /* the count is not the last one plus 1 */
    URZABELKI_REFUSAL_BAD_RECORD = 18, /* a record of a listing is not the heading phase,period,duration or, behind it, three times, each n or n/m */
};

/* The trains of a table, at most. */
#define URZABELKI_TRAINS 64

/* The numbers of one train in a row: its phase, period and duration in milliseconds, each as numerator and denominator. */
#define URZABELKI_NUMBERS 6

/* The numbers of the longest row: those of 64 trains. */
#define URZABELKI_LONGEST_ROW 384

/* The bytes of the longest stored table: 7, and 24 for each of 64 trains. */
#define URZABELKI_LONGEST_STORED 1543

/* The bytes of the longest listing that is imported. */
#define URZABELKI_LONGEST_TEXT 32768

/* The bytes of the longest listing that is exported: 23 of heading, and 67 for each of 64 trains. With so much room none is refused. */
#define URZABELKI_LONGEST_EXPORT 4311

/*
 * The bytes of the longest line that urzabelki_line and urzabelki_line_stored write, its newline among them. With so much room
 * neither is refused, and there is a table whose line is so long. No zero byte comes behind a line.
 */
#define URZABELKI_LONGEST_LINE 43

/* L, at most. L is the least common multiple of the denominators of a table's times in lowest terms, and its tick is 1/L ms. */
#define URZABELKI_MAX_MULTIPLE 1000000

/* The ticks of a phase, a delay, a period or a duration, at most. */
#define URZABELKI_MAX_TICKS 10000000

/* The value of a refusal that names no train, no place and no record. */
#define URZABELKI_NO_PLACE 64

/* The figures of a verdict. */
#define URZABELKI_FIGURES 5

/* Where they stand among the figures: L. */
#define URZABELKI_MULTIPLE 0

/* The division count: the remainders that were taken to judge the pairs, by which the time of a check is told; at most 66528. */
#define URZABELKI_DIVISIONS 1

/* The first train of the pair that collides, counted from 0. */
#define URZABELKI_FIRST 2

/* The second train of that pair. */
#define URZABELKI_SECOND 3

/* The earliest tick that both claim. */
#define URZABELKI_TICK 4

/* The places of a dispatcher, counted from 0. Each is empty or holds one train. */
#define URZABELKI_PLACES 64

/* The words of a dispatcher. */
#define URZABELKI_WORDS 259

/*
 * A dispatcher, in the caller's memory; urzabelki_fresh makes one. It may be copied and kept like any other value. On words that come
 * from elsewhere the calls are safe, and what they answer means nothing.
 */
typedef struct urzabelki_dispatcher {
    uint32_t words[URZABELKI_WORDS];
} urzabelki_dispatcher;

/* The kind of an answer, one of enum urzabelki_kinds. */
static inline uint32_t urzabelki_kind(uint64_t answer) { return (uint32_t)(answer >> 32) & 0xff; }

/* The number of a refusal, one of enum urzabelki_refusals; 0 where the call was not refused. */
static inline uint32_t urzabelki_refusal(uint64_t answer) { return (uint32_t)(answer >> 40); }

/* The place, the length or the count that is answered; of a refusal the train, the place or the record that it names, or
 * URZABELKI_NO_PLACE. */
static inline uint32_t urzabelki_value(uint64_t answer) { return (uint32_t)answer; }

/*
 * The verdict on a row, six numbers a train. Its fractions need not be in lowest terms.
 * Kind URZABELKI_ACCEPTED: no tick is ever claimed by two trains; L and the division count are written, the other figures keep
 * their values. Kind URZABELKI_COLLIDE: all figures are written; the pair is the first that collides, in the order (0, 1), (0, 2) ..
 * (1, 2) .., and the tick is the earliest that the two claim together. The value is 0 in both cases.
 * Refusals: TRAIN_COUNT; then train by train ZERO_DENOMINATOR, ZERO_TIME, DURATION_ABOVE_PERIOD; then TICK_TOO_FINE; then
 * TIME_TOO_LONG. The first of this order that applies is answered; so it is with every order below.
 */
uint64_t urzabelki_judge(const uint32_t *row, size_t length, uint64_t figures[URZABELKI_FIGURES]);

/*
 * The verdict on a stored table, as urzabelki_judge answers it for the row that is stored.
 * Refusals: those of urzabelki_load but BUFFER_TOO_SHORT; then TICK_TOO_FINE; then TIME_TOO_LONG.
 */
uint64_t urzabelki_judge_stored(const uint8_t *bytes, size_t length, uint64_t figures[URZABELKI_FIGURES]);

/*
 * The printed line of the verdict on a row, refusals included: 'accept L divisions', 'collide first second tick L divisions' or
 * 'refuse number train', with a newline. Writes it to the front of `text`; the bytes behind it keep their values. Kind URZABELKI_DONE:
 * the value is its length. A row that is refused has a line too, so the one refusal is BUFFER_TOO_SHORT, where `room` is less than
 * the line has bytes; URZABELKI_LONGEST_LINE is enough for every line.
 */
uint64_t urzabelki_line(const uint32_t *row, size_t length, uint8_t *text, size_t room);

/* The printed line of the verdict on a stored table, likewise. */
uint64_t urzabelki_line_stored(const uint8_t *bytes, size_t length, uint8_t *text, size_t room);

/*
 * Saves a row, colliding or not, to the front of `bytes`, in lowest terms; the bytes behind keep their values. Kind URZABELKI_DONE: the
 * value is the length, 7 + 24 for each train.
 * Refusals: TRAIN_COUNT; then train by train ZERO_DENOMINATOR, ZERO_TIME, DURATION_ABOVE_PERIOD; then BUFFER_TOO_SHORT.
 */
uint64_t urzabelki_save(const uint32_t *row, size_t length, uint8_t *bytes, size_t room);

/*
 * Loads a stored table to the front of `row`, in lowest terms; the numbers behind keep their values. Kind URZABELKI_DONE: the value is the
 * count of trains, six numbers each.
 * Refusals: WRONG_LENGTH for fewer than 7 bytes; WRONG_MARK; WRONG_VERSION; TRAIN_COUNT; WRONG_LENGTH; then train by train
 * ZERO_DENOMINATOR and NOT_LOWEST_TERMS of each time, ZERO_TIME, DURATION_ABOVE_PERIOD; then BUFFER_TOO_SHORT.
 */
uint64_t urzabelki_load(const uint8_t *bytes, size_t length, uint32_t *row, size_t room);

/*
 * Imports a listing, colliding or not, to the front of `row`, in lowest terms; the numbers behind keep their values. Kind URZABELKI_DONE:
 * the value is the count of trains, six numbers each.
 * A listing is text of RFC 4180: records with CRLF between them, which may stand behind the last one too, of fields with commas between
 * them; a field is quoted as a whole or not at all, and in quotes a doubled quote is one. The first record is phase,period,duration; each
 * later one is a train of three fields, each n or n/m in decimal digits, n and m below 2^32, m not 0. A blank phase is 0.
 * Refusals: TEXT_TOO_LONG by the length alone; BAD_RECORD for the first bad record of the whole text; TRAIN_COUNT; then train by train
 * ZERO_TIME, DURATION_ABOVE_PERIOD; then BUFFER_TOO_SHORT.
 */
uint64_t urzabelki_import(const uint8_t *text, size_t length, uint32_t *row, size_t room);

/*
 * Exports a row, colliding or not, as a listing to the front of `text`: lowest terms, nothing quoted, n alone where m is 1, CRLF after every
 * record. The bytes behind it keep their values, and no zero byte comes behind it. Kind URZABELKI_DONE: the value is its length.
 * Refusals: TRAIN_COUNT; then train by train ZERO_DENOMINATOR, ZERO_TIME, DURATION_ABOVE_PERIOD; then BUFFER_TOO_SHORT.
 */
uint64_t urzabelki_export(const uint32_t *row, size_t length, uint8_t *text, size_t room);

/*
 * Makes a dispatcher without a train, whatever the words were. Its first step is the one with the count after `count`; after 4294967295
 * comes 0.
 */
void urzabelki_fresh(urzabelki_dispatcher *dispatcher, uint32_t count);

/*
 * Admits a train, whose times are ticks. It first starts on the step that follows exactly `delay` further ones: with a delay of 0 on the
 * next step. Kind URZABELKI_DONE: the value is its place, the lowest that was empty.
 * Refusals: NOT_A_TRAIN; NO_EMPTY_PLACE; COLLISION, with the lowest place whose train it would ever collide with.
 */
uint64_t urzabelki_admit(urzabelki_dispatcher *dispatcher, uint32_t delay, uint32_t period, uint32_t duration);

/* Empties a place at once, in mid-run too. Kind URZABELKI_DONE: the value is 0. Refusal: NO_TRAIN_THERE. */
uint64_t urzabelki_withdraw(urzabelki_dispatcher *dispatcher, uint32_t place);

/*
 * One tick of the processor. Kind URZABELKI_IDLE: nothing runs, and the value is 0. URZABELKI_STARTS: the train at the place that is
 * the value starts. URZABELKI_GOES_ON: its run goes on. Refusal: WRONG_COUNT, where `count` is not the last one plus 1, with the wrap.
 *
 * After a lost tick the count is too high, and as a refused step changes nothing, every later one is refused too, until the caller does
 * one of two things. Either he steps with each count that was lost, one after the other, and then with the present one. The answers for
 * the lost counts say whose those ticks were; the processor did not run them, and they do not come again. From there on every train
 * starts on the very counts on which it would have started without the loss. A run that goes on in the present tick may have lost its
 * start. Or he makes a fresh dispatcher with the present count and admits the trains again, with the delays that they are now to have,
 * counted from the next step. Of the old one nothing is kept, not even who was at which place.
 * A count that was stepped already (one tick reported twice) is refused too; there is nothing to do, for nothing was changed.
 */
uint64_t urzabelki_step(urzabelki_dispatcher *dispatcher, uint32_t count);

#ifdef __cplusplus
}
#endif

#endif
