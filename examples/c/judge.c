/*
 * judge TIME..: prints the line of the verdict on the trains that its arguments say: the phase, the period and the duration of each
 * train in milliseconds, as n, n/m or a decimal such as 2.25, which is exactly 9/4; a digit stands on both sides of a point. Exit
 * status 0 where the trains are accepted, 1 where they collide or are refused, 2 with a message on standard error where an argument
 * is no time, the times are not three a train, or the line cannot be written.
 *
 *     judge 0 36/13 12/13  12/13 72/13 12/13     prints     accept 13 1
 */
#include <stdint.h>
#include <stdio.h>
#include <stdlib.h>
#include <string.h>

#include "urzabelki.h"

/* What is wrong with the characters of a word, or NULL. */
static const char *misspelt(const char *word)
{
    int points = 0;
    int slashes = 0;
    for (const char *c = word; *c != '\0'; c++) {
        if (*c == '+' || *c == '-') {
            return "has a sign";
        } else if (*c == ',') {
            return "has a comma: decimals stand behind a point";
        } else if ((*c >= 'a' && *c <= 'z') || (*c >= 'A' && *c <= 'Z')) {
            return "has a letter";
        } else if (*c == '.') {
            points++;
        } else if (*c == '/') {
            slashes++;
        } else if (*c < '0' || *c > '9') {
            return "has a character that is no digit, no point and no slash";
        }
    }
    if (points > 0 && slashes > 0) {
        return "has a point and a slash";
    }
    return points > 1 ? "has two points" : slashes > 1 ? "has two slashes" : NULL;
}

/* The number that the digits from `from` to `end` say. Where it is above UINT32_MAX, some number that is so too. */
static uint64_t number(const char *from, const char *end)
{
    uint64_t value = 0;
    for (; from < end && value <= UINT32_MAX; from++) {
        value = 10 * value + (uint64_t)(*from - '0');
    }
    return value;
}

/* The greatest common divisor, by Euclid's method. */
static uint64_t divisor(uint64_t a, uint64_t b)
{
    while (b > 0) {
        uint64_t rest = a % b;
        a = b;
        b = rest;
    }
    return a;
}

/*
 * What the decimals from `from` to `end` count, as a fraction in lowest terms. Each digit from the last on is put before what stands
 * behind it, whose denominator divides that of the whole; so where one is above UINT32_MAX, the last one is, and it is left at that.
 */
static void decimals(const char *from, const char *end, uint64_t fraction[2])
{
    fraction[0] = 0;
    fraction[1] = 1;
    while (end > from && fraction[1] <= UINT32_MAX) {
        end--;
        fraction[0] += (uint64_t)(*end - '0') * fraction[1];
        fraction[1] *= 10;
        uint64_t common = divisor(fraction[1], fraction[0]);
        fraction[0] /= common;
        fraction[1] /= common;
    }
}

/* What is missing on a side of the point or the slash at `mark`, or NULL. */
static const char *missing(const char *word, const char *mark)
{
    if (*word == '\0') {
        return "is empty";
    } else if (mark == word) {
        return *mark == '/' ? "has nothing before the slash" : "has nothing before the point";
    } else if (*mark != '\0' && mark[1] == '\0') {
        return *mark == '/' ? "has nothing behind the slash" : "has nothing behind the point";
    }
    return NULL;
}

/* Reads a time, numerator then denominator. What is wrong with the word, or NULL. A denominator of 0 is the library's to refuse. */
static const char *read_time(const char *word, uint32_t time[2])
{
    const char *mark = word + strspn(word, "0123456789");
    const char *end = word + strlen(word);
    const char *wrong = misspelt(word);
    if (wrong == NULL) {
        wrong = missing(word, mark);
    }
    if (wrong != NULL) {
        return wrong;
    }
    uint64_t whole = number(word, mark);
    uint64_t fraction[2] = {whole, 1};
    if (*mark == '/') {
        fraction[1] = number(mark + 1, end);
    }
    if (whole > UINT32_MAX || fraction[1] > UINT32_MAX) {
        return "has a number above 4294967295";
    }
    if (*mark == '.') {
        decimals(mark + 1, end, fraction);
        fraction[0] += whole * fraction[1];
    }
    if (fraction[0] > UINT32_MAX || fraction[1] > UINT32_MAX) {
        return "is, in lowest terms, a fraction with a number above 4294967295";
    }
    time[0] = (uint32_t)fraction[0];
    time[1] = (uint32_t)fraction[1];
    return NULL;
}

/* Reads all times to the row, and says of each word that is none what is wrong with it. How many are wrong. */
static size_t read_row(char *const *words, size_t times, uint32_t *row)
{
    size_t bad = 0;
    for (size_t i = 0; i < times; i++) {
        const char *wrong = read_time(words[i], &row[2 * i]);
        if (wrong != NULL) {
            fprintf(stderr, "judge: '%s' %s\n", words[i], wrong);
            bad++;
        }
    }
    if (times % 3 != 0) {
        fprintf(stderr, "judge: %zu times are no whole number of trains: a train has a phase, a period and a duration\n", times);
        bad++;
    }
    return bad;
}

/* Prints the line of the verdict. The exit status. */
static int print_verdict(const uint32_t *row, size_t length)
{
    uint64_t figures[URZABELKI_FIGURES];
    uint8_t line[URZABELKI_LONGEST_LINE];
    uint32_t kind = urzabelki_kind(urzabelki_judge(row, length, figures));
    /* The longest line has room, so this is not refused. The line has its newline, and no zero byte. */
    size_t bytes = urzabelki_value(urzabelki_line(row, length, line, sizeof line));
    if (fwrite(line, 1, bytes, stdout) != bytes || fflush(stdout) != 0 || fclose(stdout) != 0) {
        fprintf(stderr, "judge: the line cannot be written\n");
        return 2;
    }
    return kind == URZABELKI_ACCEPTED ? 0 : 1;
}

int main(int count, char **arguments)
{
    size_t times = count > 0 ? (size_t)count - 1 : 0;
    /* Two numbers a time, and never nothing. More trains than a table takes are the library's to refuse. */
    uint32_t *row = malloc((2 * times + 1) * sizeof *row);
    if (row == NULL) {
        fprintf(stderr, "judge: there is no memory for %zu times\n", times);
        return 2;
    }
    int status = read_row(arguments + 1, times, row) > 0 ? 2 : print_verdict(row, 2 * times);
    free(row);
    return status;
}
