/* pnmpipe.h: the tools of pnmpipe(1) for programs in C and C++. pnmpipe(3) is the manual page.
 *
 * Nothing is kept between calls, so any number of threads may make calls at once, each with buffers of its own. No call
 * starts a thread, touches a signal or the locale, prints anything, or ends the process. Memory comes from malloc(3),
 * and a call frees all of it but what it hands out. pnmpipe_run and pnmpipe_run_new also take a block of 1 MiB and free
 * it, untouched, after which malloc(3) keeps more of what is freed for the next call. A call needs 128 KiB of stack.
 * Don't make one from a signal handler.
 *
 * A text needs no byte 0 at its end. A pointer may be null where the length beside it is 0. Where it is null and the
 * length isn't 0, the call answers PNMPIPE_NULL. `answer` may be null, too. `room` must not overlap another buffer of
 * the call. */
#ifndef PNMPIPE_H
#define PNMPIPE_H

#include <stddef.h>
#include <stdint.h>

#ifdef __cplusplus
extern "C" {
#endif

/* It changes where a program that was built with an older header has to be built anew. */
#define PNMPIPE_ABI 1

/* The form in which results are written. */
enum pnmpipe_form {
    PNMPIPE_RAW = 0,
    PNMPIPE_PLAIN = 1
};

/* What went wrong. Numbers stay; new ones may come. From 101 on they are the faults of pnmpipe(1): 1xx of the chain's
 * text, 2xx of the input, 3xx of a tool, 4xx of the output. 5xx are want of memory. */
enum pnmpipe_code {
    /* make tables writes codes: {gap}PNMPIPE_{constant} = {number}{comma} */
    PNMPIPE_OK = 0,
    PNMPIPE_BAD_FORM = 1,
    PNMPIPE_BAD_TEXT = 2,
    PNMPIPE_ROOM = 3,
    PNMPIPE_NULL = 4,

    PNMPIPE_CHAIN_EMPTY = 101,
    PNMPIPE_CHAIN_TOO_LONG = 102,
    PNMPIPE_CHAIN_TOO_MANY = 103,
    PNMPIPE_CHAIN_EMPTY_STAGE = 104,
    PNMPIPE_CHAIN_UNKNOWN_TOOL = 105,
    PNMPIPE_CHAIN_UNKNOWN_OPTION = 106,
    PNMPIPE_CHAIN_MISSING_VALUE = 107,
    PNMPIPE_CHAIN_BAD_VALUE = 108,
    PNMPIPE_CHAIN_CONFLICT = 109,
    PNMPIPE_CHAIN_MISSING_ARGUMENT = 110,
    PNMPIPE_CHAIN_EXTRA_ARGUMENT = 111,

    PNMPIPE_INPUT_EMPTY_INPUT = 201,
    PNMPIPE_INPUT_BAD_MAGIC = 202,
    PNMPIPE_INPUT_HEADER_CUT = 203,
    PNMPIPE_INPUT_TOO_LONG = 204,
    PNMPIPE_INPUT_BAD_NUMBER = 205,
    PNMPIPE_INPUT_ZERO_SIZE = 206,
    PNMPIPE_INPUT_TOO_LARGE = 207,
    PNMPIPE_INPUT_BAD_MAXVAL = 208,
    PNMPIPE_INPUT_BAD_PAM_LINE = 209,
    PNMPIPE_INPUT_DUPLICATE_FIELD = 210,
    PNMPIPE_INPUT_MISSING_FIELD = 211,
    PNMPIPE_INPUT_RASTER_CUT = 212,
    PNMPIPE_INPUT_SAMPLE_ABOVE_MAXVAL = 213,
    PNMPIPE_INPUT_BAD_SAMPLE = 214,
    PNMPIPE_INPUT_PLAIN_IN_STREAM = 215,
    PNMPIPE_INPUT_READ_FAILED = 216,

    PNMPIPE_TOOL_CUT_OUTSIDE = 301,
    PNMPIPE_TOOL_CHANNEL_OUTSIDE = 302,
    PNMPIPE_TOOL_TOO_LARGE = 303,
    PNMPIPE_TOOL_OUT_OF_ORDER = 304,

    PNMPIPE_OUTPUT_WRITE_FAILED = 401,
    PNMPIPE_OUTPUT_OUT_OF_ORDER = 402,
    PNMPIPE_OUTPUT_BROKEN = 403,
    PNMPIPE_OUTPUT_SECOND_PLAIN = 404,
    PNMPIPE_OUTPUT_PLAIN_PAM = 405,

    PNMPIPE_CHAIN_MEMORY = 501,
    PNMPIPE_INPUT_MEMORY = 502,
    PNMPIPE_TOOL_MEMORY = 503,
    PNMPIPE_OUTPUT_MEMORY = 504
    /* up to here */
};

/* What a call answers. */
struct pnmpipe_answer {
    uint32_t code;       /* PNMPIPE_OK, or what went wrong; the call returns it, too */
    uint32_t reserved;   /* 0 */
    size_t number;       /* the stage of the chain's text or the tool that is at fault, from 1; or 0 */
    uint64_t images;     /* whole images that were written; 0 after a fault */
    uint64_t rows;       /* rows that were written; 0 after a fault */
    size_t size;         /* bytes of results, also where the room is too small for them; 0 of pnmpipe_run_fd */
    uint64_t reserved_1; /* 0 */
    uint64_t reserved_2; /* 0 */
};

/* Bytes that the caller frees by free(3). */
struct pnmpipe_bytes {
    uint8_t *at;
    size_t length;
};

/* PNMPIPE_ABI and the version of the library, such as "1.0.0". */
uint32_t pnmpipe_abi_version(void);
const char *pnmpipe_version(void);

/* The name by which pnmpipe(1) prints a fault, such as "UnknownTool"; "Unknown" for a number that is no code. */
const char *pnmpipe_code_name(uint32_t code);

/* Looks at a chain's text. `stage` is set to the number of the stage that is at fault, or to 0; it may be null. */
uint32_t pnmpipe_check(const char *chain, size_t chain_length, size_t *stage);

/* Passes the images of the input through the tools of the chain, and puts the results into the front of the room.
 * PNMPIPE_ROOM: all went well, but the results have answer->size bytes, and the room was left as it was. After any
 * other fault the room holds what was written before it, if there is room for that. */
uint32_t pnmpipe_run(const char *chain, size_t chain_length, uint32_t form, const void *input, size_t input_length,
                     void *room, size_t room_length, struct pnmpipe_answer *answer);

/* The same, with the results in a block of malloc(3) that the caller frees, also after a fault: then what was written
 * before it. The block is null where nothing was written. */
uint32_t pnmpipe_run_new(const char *chain, size_t chain_length, uint32_t form, const void *input, size_t input_length,
                         struct pnmpipe_bytes *results, struct pnmpipe_answer *answer);

/* The same from one open descriptor to another; both stay open. Images are run as they come, so the call takes memory
 * for the largest, or for small ones of 256 KiB, with their results, and for 1 MiB. The results of images that come
 * before a fault are written. A read or write that a signal interrupts is made again. Where `to` is a pipe or a socket,
 * ignore SIGPIPE. */
uint32_t pnmpipe_run_fd(const char *chain, size_t chain_length, uint32_t form, int from, int to,
                        struct pnmpipe_answer *answer);

#ifdef __cplusplus
}
#endif

#endif
