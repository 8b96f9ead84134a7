/* Reads and writes that a signal interrupts every other time, and that move three bytes at most: one call between
 * descriptors answers as one in memory does. A read or a write that fails is told by its code. */
#define _GNU_SOURCE
#include "pnmpipe.h"
#include <errno.h>
#include <stdio.h>
#include <string.h>
#include <sys/syscall.h>
#include <unistd.h>

#define WANT(what)                                                                                                     \
    if (!(what))                                                                                                       \
        return fprintf(stderr, "interrupted: line %d: %s\n", __LINE__, #what), 1

enum { SOURCE = 40, TARGET = 41 };

#define IMAGE "P5\n2 1\n122\nAB"
#define INVERTED "P5\n2 1\n122\n98"
#define NARROW "P5\n1 1\n122\nA"
#define PLAIN "P2\n1 1\n122\n65\n"

enum { LENGTH = sizeof IMAGE - 1, NEVER = 99 };

static const char *text;
static char written[64];
static size_t text_length, given, taken, calls, most_given, most_taken;
static uint32_t form = PNMPIPE_RAW;

/* (calls of the library's come here first) */
ssize_t read(int from, void *to, size_t length) {
    size_t count = text_length - given;
    if (from != SOURCE)
        return syscall(SYS_read, from, to, length);
    if (calls++ % 2 == 0 || given >= most_given)
        return errno = given >= most_given ? EIO : EINTR, -1;
    count = count < 3 ? count : 3;
    count = count < length ? count : length;
    memcpy(to, text + given, count);
    given += count;
    return (ssize_t)count;
}

ssize_t write(int to, const void *from, size_t length) {
    size_t count = length < 3 ? length : 3;
    if (to != TARGET)
        return syscall(SYS_write, to, from, length);
    if (calls++ % 2 == 0 || taken >= most_taken)
        return errno = taken >= most_taken ? EIO : EINTR, -1;
    memcpy(written + taken, from, count);
    taken += count;
    return (ssize_t)count;
}

/* What a chain answers to a text, of which so many bytes are given and so many of whose results are taken. */
static uint32_t run(const char *chain, const char *input, size_t last_given, size_t last_taken,
                    struct pnmpipe_answer *answer) {
    given = taken = calls = 0;
    text = input;
    text_length = strlen(input);
    most_given = last_given, most_taken = last_taken;
    memset(answer, 0xff, sizeof *answer);
    return pnmpipe_run_fd(chain, strlen(chain), form, SOURCE, TARGET, answer);
}

static int has_written(const char *results, size_t length) {
    return taken == length && !memcmp(written, results, length);
}

static int one_image(void) {
    struct pnmpipe_answer answer;
    WANT(run("pnminvert", IMAGE, NEVER, NEVER, &answer) == PNMPIPE_OK && answer.images == 1 && answer.rows == 1);
    WANT(given == LENGTH && has_written(INVERTED, LENGTH));
    /* a failed read comes first, after what could be written */
    WANT(run("pnminvert", IMAGE, 6, NEVER, &answer) == PNMPIPE_INPUT_READ_FAILED && taken == 0);
    WANT(answer.code == PNMPIPE_INPUT_READ_FAILED && answer.images == 0);
    WANT(run("pnminvert", IMAGE, 12, NEVER, &answer) == PNMPIPE_INPUT_READ_FAILED && has_written(INVERTED, 11));
    WANT(run("pnminvert", IMAGE, NEVER, 6, &answer) == PNMPIPE_OUTPUT_WRITE_FAILED && has_written(INVERTED, 6));
    WANT(answer.code == PNMPIPE_OUTPUT_WRITE_FAILED && answer.images == 0);
    WANT(run("pnminvert", IMAGE, 6, 0, &answer) == PNMPIPE_INPUT_READ_FAILED);
    return 0;
}

static int two_images(void) {
    struct pnmpipe_answer answer;
    WANT(run("pnminvert", IMAGE IMAGE, NEVER, NEVER, &answer) == PNMPIPE_OK && answer.images == 2 && answer.rows == 2);
    WANT(has_written(INVERTED INVERTED, 2 * LENGTH));
    /* faults of what comes later are those of the whole stream, whatever was written before */
    WANT(run("pnminvert", IMAGE IMAGE, 15, NEVER, &answer) == PNMPIPE_INPUT_READ_FAILED);
    WANT(has_written(INVERTED, LENGTH) && answer.images == 0);
    WANT(run("pnminvert", IMAGE "P5\n2 1\n122\nA", NEVER, NEVER, &answer) == PNMPIPE_INPUT_RASTER_CUT);
    WANT(has_written(INVERTED INVERTED, 2 * LENGTH - 2) && answer.images == 0);
    WANT(run("pnminvert", IMAGE "x", NEVER, NEVER, &answer) == PNMPIPE_INPUT_BAD_MAGIC);
    WANT(has_written(INVERTED, LENGTH));
    WANT(run("pnminvert", IMAGE PLAIN, NEVER, NEVER, &answer) == PNMPIPE_INPUT_PLAIN_IN_STREAM);
    WANT(has_written(INVERTED, LENGTH));
    WANT(run("pnminvert | pamcut -left 1", IMAGE NARROW IMAGE, NEVER, NEVER, &answer) == PNMPIPE_TOOL_CUT_OUTSIDE);
    WANT(answer.number == 2 && has_written("P5\n1 1\n122\n8", LENGTH - 1));
    WANT(run("pamcut -left 1", IMAGE NARROW PLAIN, NEVER, NEVER, &answer) == PNMPIPE_INPUT_PLAIN_IN_STREAM);
    /* and come before a failed write */
    WANT(run("pnminvert", IMAGE IMAGE, NEVER, 6, &answer) == PNMPIPE_OUTPUT_WRITE_FAILED && has_written(INVERTED, 6));
    WANT(run("pnminvert", IMAGE "x", NEVER, 6, &answer) == PNMPIPE_INPUT_BAD_MAGIC && has_written(INVERTED, 6));
    WANT(run("pamcut -left 1", IMAGE NARROW, NEVER, 6, &answer) == PNMPIPE_TOOL_CUT_OUTSIDE && answer.number == 1);
    return 0;
}

/* Plain output has one image. */
static int plain(void) {
    struct pnmpipe_answer answer;
    form = PNMPIPE_PLAIN;
    WANT(run("pnminvert", IMAGE, NEVER, NEVER, &answer) == PNMPIPE_OK && answer.images == 1 && answer.rows == 1);
    WANT(has_written("P2\n2 1\n122\n57 56\n", 17));
    WANT(run("pnminvert", IMAGE IMAGE, NEVER, NEVER, &answer) == PNMPIPE_OUTPUT_SECOND_PLAIN && answer.images == 0);
    WANT(has_written("P2\n2 1\n122\n57 56\n", 17));
    return 0;
}

int main(void) {
    return one_image() || two_images() || plain();
}
