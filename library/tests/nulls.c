/* Null pointers, numbers that mean nothing, and what the library says of itself. */
#include "pnmpipe.h"
#include <stdio.h>
#include <stdlib.h>
#include <string.h>

#define WANT(what)                                                                                                     \
    if (!(what))                                                                                                       \
        return fprintf(stderr, "nulls: line %d: %s\n", __LINE__, #what), 1

static const char chain[] = "pnminvert", image[] = "P5\n2 1\n122\nAB", inverted[] = "P5\n2 1\n122\n98";

int main(int count, char **words) {
    struct pnmpipe_answer answer;
    struct pnmpipe_bytes made = {(uint8_t *)image, 5};
    uint8_t room[64];
    size_t length = sizeof image - 1, stage = 5;
    WANT(count == 2 && !strcmp(pnmpipe_version(), words[1]));
    WANT(pnmpipe_abi_version() == PNMPIPE_ABI);
    /* with a length of 0: an empty chain, an empty input, no room */
    WANT(pnmpipe_check(NULL, 0, &stage) == PNMPIPE_CHAIN_EMPTY && stage == 0);
    WANT(pnmpipe_check(chain, 9, NULL) == PNMPIPE_OK);
    WANT(pnmpipe_run(chain, 9, PNMPIPE_RAW, NULL, 0, room, sizeof room, &answer) == PNMPIPE_INPUT_EMPTY_INPUT);
    WANT(pnmpipe_run(chain, 9, PNMPIPE_RAW, image, length, NULL, 0, &answer) == PNMPIPE_ROOM && answer.size == length);
    WANT(pnmpipe_run(chain, 9, PNMPIPE_RAW, image, length, NULL, 0, NULL) == PNMPIPE_ROOM);
    WANT(pnmpipe_run(NULL, 0, PNMPIPE_RAW, NULL, 0, NULL, 0, NULL) == PNMPIPE_CHAIN_EMPTY);
    WANT(pnmpipe_run_new(NULL, 0, PNMPIPE_RAW, NULL, 0, &made, NULL) == PNMPIPE_CHAIN_EMPTY);
    WANT(!made.at && !made.length);
    WANT(pnmpipe_run_fd(NULL, 0, PNMPIPE_RAW, 0, 1, NULL) == PNMPIPE_CHAIN_EMPTY);
    /* with another length */
    WANT(pnmpipe_check(NULL, 1, &stage) == PNMPIPE_NULL && stage == 0);
    WANT(pnmpipe_run(NULL, 1, PNMPIPE_RAW, image, length, room, sizeof room, &answer) == PNMPIPE_NULL);
    WANT(pnmpipe_run(chain, 9, PNMPIPE_RAW, NULL, 1, room, sizeof room, &answer) == PNMPIPE_NULL);
    WANT(pnmpipe_run(chain, 9, PNMPIPE_RAW, image, length, NULL, 1, &answer) == PNMPIPE_NULL);
    WANT(answer.code == PNMPIPE_NULL && !answer.number && !answer.size && !answer.images && !answer.rows);
    made.length = 5;
    WANT(pnmpipe_run_new(chain, 9, PNMPIPE_RAW, NULL, 1, &made, &answer) == PNMPIPE_NULL && !made.at && !made.length);
    WANT(pnmpipe_run_new(chain, 9, PNMPIPE_RAW, image, length, NULL, &answer) == PNMPIPE_NULL);
    WANT(pnmpipe_run_fd(NULL, 1, PNMPIPE_RAW, 0, 1, &answer) == PNMPIPE_NULL);
    /* other numbers and texts */
    WANT(pnmpipe_run(chain, 9, 2, image, length, room, sizeof room, &answer) == PNMPIPE_BAD_FORM);
    WANT(pnmpipe_run_new(chain, 9, 0xffffffff, image, length, &made, &answer) == PNMPIPE_BAD_FORM && !made.at);
    WANT(pnmpipe_run_fd(chain, 9, 2, 0, 1, &answer) == PNMPIPE_BAD_FORM);
    WANT(pnmpipe_check("pnminvert \xff", 11, &stage) == PNMPIPE_BAD_TEXT && stage == 0);
    WANT(pnmpipe_run_fd(chain, 9, PNMPIPE_RAW, -1, 1, &answer) == PNMPIPE_INPUT_READ_FAILED);
    WANT(!strcmp(pnmpipe_code_name(PNMPIPE_CHAIN_UNKNOWN_TOOL), "UnknownTool"));
    WANT(!strcmp(pnmpipe_code_name(100), "Unknown") && !strcmp(pnmpipe_code_name(0xffffffff), "Unknown"));
    /* no byte behind the text is read: here none is the chain's */
    WANT(pnmpipe_check("pnminvert | pamflop", 9, NULL) == PNMPIPE_OK);
    WANT(pnmpipe_run(chain, 9, PNMPIPE_RAW, image, length, room, sizeof room, &answer) == PNMPIPE_OK);
    WANT(answer.size == length && answer.images == 1 && answer.rows == 1 && !memcmp(room, inverted, length));
    return 0;
}
