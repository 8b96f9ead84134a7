/* A print filter, called as cupsd(8) calls one: filter JOB USER TITLE COPIES OPTIONS [FILE]
 *
 * Pages come as PNM images from the file or from standard input, and go to standard output. CHAIN of the environment
 * has the tools, as a filter's wrapper sets it. What goes wrong is told on standard error, in CUPS's form. */
#include <fcntl.h>
#include <pnmpipe.h>
#include <signal.h>
#include <stdio.h>
#include <stdlib.h>
#include <string.h>

int main(int count, char **words) {
    struct pnmpipe_answer answer;
    const char *chain = getenv("CHAIN");
    size_t stage;
    int from = 0;
    if (count < 6 || count > 7 || chain == NULL) {
        fprintf(stderr, "ERROR: usage: CHAIN=.. %s job user title copies options [file]\n", words[0]);
        return 1;
    }
    if (pnmpipe_check(chain, strlen(chain), &stage) != PNMPIPE_OK) {
        fprintf(stderr, "ERROR: stage %lu of the chain is at fault: %s\n", (unsigned long)stage, chain);
        return 1;
    }
    if (count == 7 && (from = open(words[6], O_RDONLY)) < 0) {
        perror("ERROR: the file");
        return 1;
    }
    signal(SIGPIPE, SIG_IGN);
    if (pnmpipe_run_fd(chain, strlen(chain), PNMPIPE_RAW, from, 1, &answer) != PNMPIPE_OK) {
        fprintf(stderr, "ERROR: %s, of tool %lu\n", pnmpipe_code_name(answer.code), (unsigned long)answer.number);
        return 1;
    }
    fprintf(stderr, "PAGE: total %lu\n", (unsigned long)answer.images);
    return 0;
}
