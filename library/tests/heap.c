/* Calls over a page, one after another: heap CHAIN < PAGE. Each uses the memory that those before it have used, so that
 * the kernel gives next to no pages anew. */
#define _POSIX_C_SOURCE 200809L
#include "pnmpipe.h"
#include <stdio.h>
#include <stdlib.h>
#include <string.h>
#include <sys/resource.h>

enum { CALLS = 200 };

static uint8_t page[1 << 18], room[1 << 18];
static size_t length;

/* How many pages the kernel has given. */
static long given(void) {
    struct rusage used;
    getrusage(RUSAGE_SELF, &used);
    return used.ru_minflt;
}

/* Whether calls of both kinds go well. */
static int are_made(const char *chain, int calls) {
    int call;
    for (call = 0; call < calls; call++) {
        struct pnmpipe_bytes made;
        if (pnmpipe_run(chain, strlen(chain), PNMPIPE_RAW, page, length, room, sizeof room, NULL) ||
            pnmpipe_run_new(chain, strlen(chain), PNMPIPE_RAW, page, length, &made, NULL))
            return 0;
        free(made.at);
    }
    return 1;
}

int main(int count, char **words) {
    long before, after;
    length = fread(page, 1, sizeof page, stdin);
    if (count != 2 || !are_made(words[1], 3))
        return 2;
    before = given();
    if (!are_made(words[1], CALLS))
        return 2;
    after = given();
    if (after - before > CALLS)
        return fprintf(stderr, "heap: %d calls took %ld pages anew\n", 2 * CALLS, after - before), 1;
    return 0;
}
