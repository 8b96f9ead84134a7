/* Refuses each allocation of each call in turn, alone and with all after it: refused FORM CHAIN < IMAGES. The call
 * answers want of memory with a prefix of the results, or what it answers with memory, and frees all that it took. */
#define _POSIX_C_SOURCE 200809L
#include "pnmpipe.h"
#include <stdio.h>
#include <stdlib.h>
#include <string.h>
#include <unistd.h>

#define MOST 100000

extern void *__libc_malloc(size_t), *__libc_realloc(void *, size_t);
extern void __libc_free(void *);

static long left = -1, held;
static int for_good;

static int is_refused(void) {
    if (left < 0)
        return 0;
    if (left > 0) {
        left--;
        return 0;
    }
    if (!for_good)
        left = -1;
    return 1;
}

void *malloc(size_t size) {
    void *at = is_refused() ? NULL : __libc_malloc(size);
    held += at != NULL;
    return at;
}

void *realloc(void *at, size_t size) {
    void *to = is_refused() ? NULL : __libc_realloc(at, size);
    held += at == NULL && to != NULL;
    return to;
}

void free(void *at) {
    held -= at != NULL;
    __libc_free(at);
}

static uint8_t images[1 << 16], room[1 << 20];
static const char *chain;
static size_t chain_length, images_length;
static uint32_t form;
static FILE *given, *written;

enum call { CHECK, RUN, RUN_NEW, RUN_FD, CALLS };

static const char *const names[] = {"check", "run", "run_new", "run_fd"};

/* What a call answers, and the results, if it has any. */
static uint32_t answered(enum call call, uint8_t *results, size_t *length) {
    struct pnmpipe_answer answer = {0, 0, 0, 0, 0, 0, 0, 0};
    struct pnmpipe_bytes made;
    uint32_t code;
    int from, to;
    *length = 0;
    if (call == CHECK)
        return pnmpipe_check(chain, chain_length, NULL);
    if (call == RUN) {
        code = pnmpipe_run(chain, chain_length, form, images, images_length, results, sizeof room, &answer);
        *length = answer.size;
        return code;
    }
    if (call == RUN_NEW) {
        code = pnmpipe_run_new(chain, chain_length, form, images, images_length, &made, &answer);
        *length = made.length;
        memcpy(results, made.length ? made.at : results, made.length);
        free(made.at);
        return code;
    }
    from = fileno(given);
    to = fileno(written);
    if (lseek(from, 0, SEEK_SET) || lseek(to, 0, SEEK_SET) || ftruncate(to, 0))
        return 1;
    code = pnmpipe_run_fd(chain, chain_length, form, from, to, &answer);
    *length = (size_t)lseek(to, 0, SEEK_CUR);
    return pread(to, results, *length, 0) == (ssize_t)*length ? code : 1;
}

/* How many allocations the call makes. */
static long try_call(enum call call, long *refused) {
    static uint8_t wanted[sizeof room];
    size_t size, length;
    uint32_t code, whole = answered(call, wanted, &size);
    long number;
    for (number = 0; number < MOST; number++) {
        long before = held;
        int was_met;
        left = number;
        code = answered(call, room, &length);
        was_met = for_good ? left == 0 : left < 0;
        left = -1;
        if (held != before)
            fprintf(stderr, "refused: %s: %ld blocks are left at %ld\n", names[call], held - before, number), exit(1);
        /* (the input's fault is told before a tool's want of memory, and then less may be written) */
        if ((code != whole && !(was_met && code / 100 == 5)) || length > size ||
            (code == whole && length < size && !(was_met && whole)))
            fprintf(stderr, "refused: %s: code %lu at %ld\n", names[call], (unsigned long)code, number), exit(1);
        if (memcmp(room, wanted, length))
            fprintf(stderr, "refused: %s: other results at %ld\n", names[call], number), exit(1);
        if (!was_met)
            break;
        *refused += code / 100 == 5;
    }
    return number;
}

int main(int count, char **words) {
    int call;
    given = tmpfile(), written = tmpfile();
    if (count != 3 || !given || !written)
        return 2;
    form = strcmp(words[1], "plain") ? PNMPIPE_RAW : PNMPIPE_PLAIN;
    chain = words[2], chain_length = strlen(chain);
    images_length = fread(images, 1, sizeof images, stdin);
    if (write(fileno(given), images, images_length) != (ssize_t)images_length)
        return 2;
    for (for_good = 0; for_good < 2; for_good++)
        for (call = 0; call < CALLS; call++) {
            long refused = 0, number = try_call((enum call)call, &refused);
            if (number == 0 || refused == 0)
                return fprintf(stderr, "refused: %s: nothing was refused\n", names[call]), 1;
            printf("%s%s: %ld allocations, %ld runs want memory\n", names[call], for_good ? ", all after it" : "",
                   number, refused);
        }
    return 0;
}
