/*
 * Runs a program on a pipe that is not ready when the program is: `pipes late FILE PROGRAM` feeds it the file in two pieces,
 * each after a pause, and `pipes slow PROGRAM` copies what it writes, after a pause and a little at a time. The program's end
 * of the pipe does not block, so that a call that finds it not ready fails instead of waiting.
 */
#define _POSIX_C_SOURCE 200809L
#include <fcntl.h>
#include <stdio.h>
#include <stdlib.h>
#include <string.h>
#include <sys/wait.h>
#include <time.h>
#include <unistd.h>

#define MOST 65536

static unsigned char bytes[MOST];

static void stop(const char *what)
{
    perror(what);
    exit(2);
}

static void pause_for(long milliseconds)
{
    struct timespec time = {0, milliseconds * 1000000};
    nanosleep(&time, NULL);
}

static void write_all(int to, const unsigned char *from, size_t length)
{
    while (length > 0) {
        ssize_t taken = write(to, from, length);
        if (taken <= 0)
            stop("pipes: write");
        from += taken;
        length -= (size_t)taken;
    }
}

/* Starts the program with its end of a new pipe as its standard input or output, and hands back the other end. */
static int started(char **program, int is_output)
{
    int ends[2];
    pid_t child;
    if (pipe(ends) != 0)
        stop("pipes: pipe");
    if (fcntl(ends[is_output], F_SETFL, O_NONBLOCK) != 0)
        stop("pipes: fcntl");
    child = fork();
    if (child < 0)
        stop("pipes: fork");
    if (child == 0) {
        dup2(ends[is_output], is_output ? STDOUT_FILENO : STDIN_FILENO);
        close(ends[0]);
        close(ends[1]);
        execv(program[0], program);
        stop("pipes: execv");
    }
    close(ends[is_output]);
    return ends[!is_output];
}

static void feed_late(const char *file, int to)
{
    FILE *opened = fopen(file, "rb");
    size_t length;
    if (opened == NULL)
        stop("pipes: fopen");
    length = fread(bytes, 1, MOST, opened);
    fclose(opened);
    pause_for(300);
    write_all(to, bytes, length / 2);
    pause_for(300);
    write_all(to, bytes + length / 2, length - length / 2);
    close(to);
}

static void copy_slowly(int from)
{
    ssize_t count;
    pause_for(300);
    while ((count = read(from, bytes, MOST / 4)) > 0) {
        write_all(STDOUT_FILENO, bytes, (size_t)count);
        pause_for(2);
    }
}

int main(int count, char **words)
{
    if (count == 4 && strcmp(words[1], "late") == 0) {
        feed_late(words[2], started(words + 3, 0));
    } else if (count == 3 && strcmp(words[1], "slow") == 0) {
        copy_slowly(started(words + 2, 1));
    } else {
        fprintf(stderr, "pipes late FILE PROGRAM, or pipes slow PROGRAM\n");
        return 2;
    }
    wait(NULL);
    return 0;
}
