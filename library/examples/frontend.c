/* A scanner's front end that holds a page and turns it as its user asks: frontend CHAIN < page.pnm > turned.pnm
 *
 * A scan comes row by row, as sane_read() of SANE gives it. The whole page lies in memory then, and each press of a
 * button runs a chain over it: the result is a block of its own, so that the page can be turned back. */
#include <pnmpipe.h>
#include <stdio.h>
#include <stdlib.h>
#include <string.h>

struct page {
    unsigned char *bytes;
    size_t length;
};

/* The bytes that come in parts. */
static int scan(struct page *page, FILE *from) {
    size_t room = 0, count;
    page->bytes = NULL;
    page->length = 0;
    do {
        if (page->length == room) {
            unsigned char *more = realloc(page->bytes, room = room ? 2 * room : 65536);
            if (more == NULL)
                return 0;
            page->bytes = more;
        }
        count = fread(page->bytes + page->length, 1, room - page->length, from);
        page->length += count;
    } while (count > 0);
    return !ferror(from);
}

/* Replaces the page by what the chain makes of it. After a fault it stays as it was. */
static uint32_t apply(struct page *page, const char *chain) {
    struct pnmpipe_answer answer;
    struct pnmpipe_bytes results;
    uint32_t code = pnmpipe_run_new(chain, strlen(chain), PNMPIPE_RAW, page->bytes, page->length, &results, &answer);
    if (code == PNMPIPE_OK) {
        free(page->bytes);
        page->bytes = results.at;
        page->length = results.length;
    } else {
        free(results.at);
        fprintf(stderr, "frontend: %s of tool or stage %lu\n", pnmpipe_code_name(code), (unsigned long)answer.number);
    }
    return code;
}

int main(int count, char **words) {
    struct page page;
    int status;
    if (count != 2 || !scan(&page, stdin))
        return 2;
    status = apply(&page, words[1]) != PNMPIPE_OK;
    if (status == 0)
        status = fwrite(page.bytes, 1, page.length, stdout) != page.length;
    free(page.bytes);
    return status;
}
