/* Runs at once over one library: threads STACK THREADS CALLS FORM CHAIN < IMAGES. Each thread makes its calls of all
 * kinds on a stack of STACK bytes, and wants the results that one call had before. */
#define _POSIX_C_SOURCE 200809L
#include "pnmpipe.h"
#include <pthread.h>
#include <stdio.h>
#include <stdlib.h>
#include <string.h>

static uint8_t images[1 << 20];
static size_t images_length;
static struct pnmpipe_bytes wanted;
static const char *chain;
static uint32_t form;
static long calls;

/* Whether a call from one file to another writes the same. */
static int between(uint8_t *room, size_t length) {
    FILE *from = tmpfile(), *to = tmpfile();
    int is_well = from && to && fwrite(images, 1, images_length, from) == images_length && !fflush(from);
    if (is_well) {
        rewind(from);
        is_well = pnmpipe_run_fd(chain, length, form, fileno(from), fileno(to), NULL) == PNMPIPE_OK;
        rewind(to);
        is_well = is_well && fread(room, 1, wanted.length + 1, to) == wanted.length;
        is_well = is_well && !memcmp(room, wanted.at, wanted.length);
    }
    if (from)
        fclose(from);
    if (to)
        fclose(to);
    return is_well;
}

static void *work(void *unused) {
    uint8_t *room = malloc(wanted.length + 1);
    long call;
    (void)unused;
    for (call = 0; room && call < calls; call++) {
        struct pnmpipe_answer answer;
        struct pnmpipe_bytes made;
        size_t length = strlen(chain);
        if (pnmpipe_run(chain, length, form, images, images_length, room, wanted.length, &answer) ||
            answer.size != wanted.length || memcmp(room, wanted.at, wanted.length) ||
            pnmpipe_run_new(chain, length, form, images, images_length, &made, &answer) ||
            made.length != wanted.length || memcmp(made.at, wanted.at, made.length) ||
            pnmpipe_check(chain, length, NULL) || pnmpipe_check("pamflop", 7, NULL) != PNMPIPE_CHAIN_UNKNOWN_TOOL)
            return (void *)"differs";
        free(made.at);
        if (!between(room, length))
            return (void *)"differs between descriptors";
    }
    free(room);
    return room ? NULL : (void *)"no memory";
}

int main(int count, char **words) {
    pthread_t threads[64];
    pthread_attr_t how;
    int number, at, failed = 0;
    if (count != 6 || (number = atoi(words[2])) > 64 || pthread_attr_init(&how) ||
        pthread_attr_setstacksize(&how, strtoul(words[1], NULL, 10)))
        return 2;
    calls = atol(words[3]);
    form = strcmp(words[4], "plain") ? PNMPIPE_RAW : PNMPIPE_PLAIN;
    chain = words[5];
    images_length = fread(images, 1, sizeof images, stdin);
    if (pnmpipe_run_new(chain, strlen(chain), form, images, images_length, &wanted, NULL))
        return 2;
    for (at = 0; at < number; at++)
        if (pthread_create(&threads[at], &how, work, NULL))
            return 2;
    for (at = 0; at < number; at++) {
        void *told;
        pthread_join(threads[at], &told);
        if (told)
            failed = fprintf(stderr, "threads: %s\n", (const char *)told);
    }
    free(wanted.at);
    return failed != 0;
}
