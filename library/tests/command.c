/* What pnmpipe(1) does with a chain, by the library: command HOW FORM CHAIN, with HOW `memory` or `fd`, and FORM `raw`
 * or `plain`. In memory it makes each call that can be made of the chain and input, and wants one answer of all. */
#define _POSIX_C_SOURCE 200809L
#include "pnmpipe.h"
#include <signal.h>
#include <stdio.h>
#include <stdlib.h>
#include <string.h>

#define GUARD 64

static const char *chain;
static size_t chain_length;
static uint32_t form;

static void fail(const char *what) {
    fprintf(stderr, "command: %s\n", what);
    exit(3);
}

/* The line and the status of pnmpipe(1). */
static int told(uint32_t code, size_t number) {
    const char *name = pnmpipe_code_name(code);
    uint32_t class = code < 500 ? code / 100 : code - 500;
    if (code == PNMPIPE_OK)
        return 0;
    if (code < 100)
        fail(name);
    if (class == 1 && number)
        fprintf(stderr, "pnmpipe: chain: stage %zu: %s\n", number, name);
    else if (class == 1)
        fprintf(stderr, "pnmpipe: chain: %s\n", name);
    else if (class == 2)
        fprintf(stderr, "pnmpipe: input: %s\n", name);
    else if (class == 3)
        fprintf(stderr, "pnmpipe: tool %zu: %s\n", number, name);
    else
        fprintf(stderr, "pnmpipe: output: %s\n", name);
    return class == 1 ? 2 : 1;
}

static uint8_t *read_all(size_t *length) {
    size_t size = 1 << 16, count;
    uint8_t *bytes = malloc(size);
    *length = 0;
    while (bytes && (count = fread(bytes + *length, 1, size - *length, stdin)) > 0)
        if ((*length += count) == size)
            bytes = realloc(bytes, size *= 2);
    if (!bytes)
        fail("no memory");
    return bytes;
}

static int is_same(const struct pnmpipe_answer *one, const struct pnmpipe_answer *other) {
    return one->code == other->code && one->number == other->number && one->images == other->images &&
           one->rows == other->rows && one->size == other->size && !other->reserved && !other->reserved_1 &&
           !other->reserved_2;
}

/* Wants a room of this length to be answered as the answer says, with the results in it if they fit. */
static void try_room(const uint8_t *input, size_t input_length, const struct pnmpipe_bytes *results,
                     const struct pnmpipe_answer *wanted, size_t length) {
    struct pnmpipe_answer answer, due = *wanted;
    int fits = results->length <= length;
    uint8_t *room = malloc(length + GUARD);
    size_t at;
    if (!room)
        fail("no memory");
    memset(room, 0xa5, length + GUARD);
    memset(&answer, 0xff, sizeof answer);
    if (!fits && due.code == PNMPIPE_OK)
        due.code = PNMPIPE_ROOM;
    if (pnmpipe_run(chain, chain_length, form, input, input_length, room, length, &answer) != due.code)
        fail("a room is answered by another code");
    if (!is_same(&due, &answer))
        fail("a room is answered otherwise");
    if (fits && results->length && memcmp(room, results->at, results->length))
        fail("a room holds other results");
    for (at = fits ? results->length : 0; at < length + GUARD; at++)
        if (room[at] != 0xa5)
            fail("a byte behind the results was written");
    free(room);
}

static int run_in_memory(void) {
    size_t input_length, stage;
    struct pnmpipe_answer answer;
    struct pnmpipe_bytes results;
    uint8_t *input;
    uint32_t code = pnmpipe_check(chain, chain_length, &stage);
    if (code)
        return told(code, stage);
    input = read_all(&input_length);
    memset(&answer, 0xff, sizeof answer);
    code = pnmpipe_run_new(chain, chain_length, form, input, input_length, &results, &answer);
    if (code != answer.code || results.length != answer.size || (results.at == NULL) != (results.length == 0))
        fail("the answer doesn't fit its results");
    if (!is_same(&answer, &answer))
        fail("a reserved word isn't 0");
    try_room(input, input_length, &results, &answer, results.length);
    try_room(input, input_length, &results, &answer, results.length + 100);
    if (results.length) {
        try_room(input, input_length, &results, &answer, results.length - 1);
        try_room(input, input_length, &results, &answer, 0);
        if (fwrite(results.at, 1, results.length, stdout) != results.length)
            fail("the results can't be written");
    }
    free(results.at);
    free(input);
    return told(answer.code, answer.number);
}

static int run_between(void) {
    struct pnmpipe_answer answer;
    uint32_t code;
    memset(&answer, 0xff, sizeof answer);
    signal(SIGPIPE, SIG_IGN);
    code = pnmpipe_run_fd(chain, chain_length, form, 0, 1, &answer);
    if (code != answer.code || answer.size || !is_same(&answer, &answer))
        fail("the answer doesn't fit");
    return told(code, answer.number);
}

int main(int count, char **words) {
    if (count != 4)
        fail("say HOW FORM CHAIN");
    form = strcmp(words[2], "plain") ? PNMPIPE_RAW : PNMPIPE_PLAIN;
    chain = words[3];
    chain_length = strlen(chain);
    return strcmp(words[1], "memory") ? run_between() : run_in_memory();
}
