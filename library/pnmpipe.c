/* The C layer above the proved functions: null checks, file descriptors, and the names of the codes. The proved
 * functions take no null pointer: one with length 0 becomes a pointer to a byte that isn't read, and for any other the
 * answer is PNMPIPE_NULL. Nor do they touch descriptors: pnmpipe_run_fd reads and writes, and calls them for what it
 * has read. */
#define _POSIX_C_SOURCE 200809L
#include "pnmpipe.h"
#include <errno.h>
#include <stdlib.h>
#include <string.h>
#include <unistd.h>

/* The proved functions, of crates/pnm_c. */
uint32_t pnm_c_check(const uint8_t *chain, size_t chain_length, size_t *stage);
uint32_t pnm_c_run(const uint8_t *chain, size_t chain_length, uint32_t form, const uint8_t *input, size_t input_length,
                   uint8_t *room, size_t room_length, struct pnmpipe_answer *answer);
uint32_t pnm_c_run_new(const uint8_t *chain, size_t chain_length, uint32_t form, const uint8_t *input,
                       size_t input_length, struct pnmpipe_bytes *results, struct pnmpipe_answer *answer);
uint32_t pnm_c_image_end(const uint8_t *text, size_t text_length, uint32_t is_first, size_t *end);

/* The bytes of the block whose freeing has the heap keep more. */
enum { KEPT = 1 << 20 };

static const uint8_t *bytes_of(const void *at) {
    static const uint8_t nothing = 0;
    return at ? (const uint8_t *)at : &nothing;
}

static int is_missing(const void *at, size_t length) {
    return at == NULL && length > 0;
}

/* A code of what these functions meet themselves. */
static uint32_t tell(struct pnmpipe_answer *answer, uint32_t code) {
    static const struct pnmpipe_answer nothing = {0, 0, 0, 0, 0, 0, 0, 0};
    if (answer) {
        *answer = nothing;
        answer->code = code;
    }
    return code;
}

static uint32_t refuse(struct pnmpipe_answer *answer) {
    return tell(answer, PNMPIPE_NULL);
}

/* Has the heap keep what a call uses. malloc(3) of the GNU C library gives the free end of its heap back to the kernel
 * where that is more than 128 KiB; once a larger block was freed, twice as much as it had may stay (mallopt(3)). So a
 * block is freed here, of which no byte is touched, and it's no matter if there is none. Else the kernel clears the
 * memory of each call over an image of 100 KB anew, which takes longer than a tool. */
static void keep_heap(void) {
    /* (volatile, or the compiler leaves both calls out) */
    void *volatile block = malloc(KEPT);
    free(block);
}

uint32_t pnmpipe_abi_version(void) {
    return PNMPIPE_ABI;
}

const char *pnmpipe_version(void) {
    return PNMPIPE_VERSION;
}

uint32_t pnmpipe_check(const char *chain, size_t chain_length, size_t *stage) {
    size_t unused;
    if (stage == NULL)
        stage = &unused;
    *stage = 0;
    if (is_missing(chain, chain_length))
        return PNMPIPE_NULL;
    return pnm_c_check(bytes_of(chain), chain_length, stage);
}

uint32_t pnmpipe_run(const char *chain, size_t chain_length, uint32_t form, const void *input, size_t input_length,
                     void *room, size_t room_length, struct pnmpipe_answer *answer) {
    struct pnmpipe_answer unused;
    uint8_t no_room;
    if (is_missing(chain, chain_length) || is_missing(input, input_length) || is_missing(room, room_length))
        return refuse(answer);
    keep_heap();
    return pnm_c_run(bytes_of(chain), chain_length, form, bytes_of(input), input_length,
                     room ? (uint8_t *)room : &no_room, room_length, answer ? answer : &unused);
}

uint32_t pnmpipe_run_new(const char *chain, size_t chain_length, uint32_t form, const void *input, size_t input_length,
                         struct pnmpipe_bytes *results, struct pnmpipe_answer *answer) {
    struct pnmpipe_answer unused;
    if (results == NULL)
        return refuse(answer);
    results->at = NULL;
    results->length = 0;
    if (is_missing(chain, chain_length) || is_missing(input, input_length))
        return refuse(answer);
    keep_heap();
    return pnm_c_run_new(bytes_of(chain), chain_length, form, bytes_of(input), input_length, results,
                         answer ? answer : &unused);
}

/* ---- between descriptors
 *
 * Images are run as they come, small ones several at a time. A proved function, pnm_c_image_end, says of the bytes that
 * are held where their first image ends; how many bytes it has at least, if it isn't whole; or which fault its header
 * has, whatever follows. So what is run are whole images of the stream, and their faults are the stream's. The call
 * ends at the first fault of the input. Of other faults that of the first tool in the chain counts, and a tool's before
 * one of the output, so that the call reads on after them, but it writes no more. */

/* How many bytes of images are run at a time, unless one has more; those of the smallest buffer, and of any header. */
enum { PART = 1 << 18, ROOM = 1 << 19, HEADER = 1 << 16 };

struct stream {
    const uint8_t *chain;
    size_t chain_length;
    uint32_t form;
    int from, to;
    /* what was read and isn't run: the bytes of the buffer from `at` up to `end` */
    uint8_t *buffer;
    size_t room, at, end;
    /* how many of them there have to be before it is asked again where the first image ends */
    size_t wanted;
    /* whether an image was run; whether no more is read, and why no more could be; whether a write failed */
    int is_begun, is_read, is_lost;
    uint32_t reading;
};

static size_t held(const struct stream *stream) {
    return stream->end - stream->at;
}

/* Whether an image is plain, of which a magic is there. It is the only one, and nothing behind it counts. */
static int is_plain(const uint8_t *image) {
    return image[1] < '4';
}

/* Finds the whole images that are held first, as many as make a part, and the fault of the header behind them. */
static uint32_t find_part(struct stream *stream, size_t *part) {
    size_t left, end;
    for (*part = 0; *part < PART && (left = held(stream) - *part) >= stream->wanted; *part += end) {
        const uint8_t *first = stream->buffer + stream->at + *part;
        uint32_t code = pnm_c_image_end(first, left, !stream->is_begun && *part == 0, &end);
        if (code != PNMPIPE_OK)
            return code;
        if (end > left) {
            /* (of a plain image no length is known) */
            stream->wanted = left > HEADER && is_plain(first) ? 2 * left : end;
            return code;
        }
        stream->wanted = 1;
    }
    return PNMPIPE_OK;
}

/* Makes room behind what is held, for an image of so many bytes as are wanted where it can be. A header may promise
 * what doesn't come, so the buffer has at most twice as much as was read. */
static int make_room(struct stream *stream) {
    size_t room = stream->room > 0 ? 2 * stream->room : ROOM;
    uint8_t *more;
    if (stream->end < stream->room && stream->room - stream->at >= stream->wanted)
        return 1;
    if (stream->at > 0) {
        stream->end = held(stream);
        memmove(stream->buffer, stream->buffer + stream->at, stream->end);
        stream->at = 0;
    }
    if (stream->end < stream->room)
        return 1;
    if (stream->room > 0 && stream->wanted < room)
        room = stream->wanted;
    more = stream->room <= SIZE_MAX / 2 ? realloc(stream->buffer, room) : NULL;
    if (more == NULL)
        return 0;
    stream->buffer = more;
    stream->room = room;
    return 1;
}

/* Reads once, as soon as there is room for it. */
static void read_more(struct stream *stream) {
    ssize_t count;
    if (!make_room(stream)) {
        stream->is_read = 1;
        stream->reading = PNMPIPE_INPUT_MEMORY;
        return;
    }
    do
        count = read(stream->from, stream->buffer + stream->end, stream->room - stream->end);
    while (count < 0 && errno == EINTR);
    if (count > 0)
        stream->end += (size_t)count;
    stream->is_read = count <= 0;
    if (count < 0)
        stream->reading = PNMPIPE_INPUT_READ_FAILED;
}

/* Writes the results. After a failed write nothing more is written. */
static void write_all(struct stream *stream, const struct pnmpipe_bytes *results) {
    size_t at = 0;
    while (at < results->length && !stream->is_lost) {
        ssize_t count = write(stream->to, results->at + at, results->length - at);
        if (count > 0)
            at += (size_t)count;
        else if (count == 0 || errno != EINTR)
            stream->is_lost = 1;
    }
}

static int is_of_input(uint32_t code) {
    return code / 100 == 2;
}

static int is_of_tool(uint32_t code) {
    return code / 100 == 3;
}

static int is_of_memory(uint32_t code) {
    return code / 100 == 5;
}

/* Whether a code is of the output, which comes after the input's faults and the tools'. */
static int is_of_output(uint32_t code) {
    return code == PNMPIPE_OK || code / 100 == 4 || code == PNMPIPE_OUTPUT_MEMORY;
}

/* Whether a fault ends the call: what comes after it in the input can't change that. */
static int is_last(uint32_t code) {
    return is_of_input(code) || is_of_memory(code);
}

/* Adds what was answered of the next images to what the stream is to be answered. */
static void add_answer(struct pnmpipe_answer *answer, const struct pnmpipe_answer *next) {
    if (answer->code == PNMPIPE_OK && next->code == PNMPIPE_OK) {
        answer->images += next->images;
        answer->rows += next->rows;
    } else if (answer->code == PNMPIPE_OK || (is_last(next->code) && !is_of_output(next->code)) ||
               (is_of_tool(next->code) && (!is_of_tool(answer->code) || next->number < answer->number))) {
        *answer = *next;
    }
}

/* Runs the next bytes, which are whole images or all that is left, and writes their results. A plain file has one
 * image, so if there was one, the others are run for the faults of the input and of tools alone. */
static void run_part(struct stream *stream, size_t part, struct pnmpipe_answer *answer) {
    struct pnmpipe_bytes results = {NULL, 0};
    struct pnmpipe_answer next;
    int is_second = stream->form == PNMPIPE_PLAIN && answer->images > 0;
    uint32_t form = is_second ? (uint32_t)PNMPIPE_RAW : stream->form;
    int is_only = !stream->is_begun && part > 1 && is_plain(stream->buffer + stream->at);
    uint32_t code = pnm_c_run_new(stream->chain, stream->chain_length, form,
                                  part > 0 ? stream->buffer + stream->at : bytes_of(NULL), part, &results, &next);
    if (answer->code == PNMPIPE_OK && !is_second)
        write_all(stream, &results);
    free(results.at);
    if (is_second && (code == PNMPIPE_OK || code == PNMPIPE_OUTPUT_MEMORY))
        tell(&next, PNMPIPE_OUTPUT_SECOND_PLAIN);
    add_answer(answer, &next);
    stream->at += part;
    stream->is_begun = 1;
    stream->is_read = stream->is_read || is_only;
}

/* Runs all that is read, to the end of the input or its first fault, which is left in the answer. */
static void run_images(struct stream *stream, struct pnmpipe_answer *answer) {
    while (!is_last(answer->code)) {
        size_t part;
        uint32_t code = find_part(stream, &part);
        if (part > 0)
            run_part(stream, part, answer);
        else if (code != PNMPIPE_OK)
            tell(answer, code);
        else if (!stream->is_read)
            read_more(stream);
        else
            break;
    }
}

/* The code of what a stream came to; the answer has it, too. */
static uint32_t run_stream(struct stream *stream, struct pnmpipe_answer *answer) {
    tell(answer, PNMPIPE_OK);
    stream->wanted = 1;
    run_images(stream, answer);
    if (stream->reading == PNMPIPE_INPUT_MEMORY)
        return tell(answer, stream->reading);
    if (!is_last(answer->code) && (held(stream) > 0 || !stream->is_begun))
        run_part(stream, held(stream), answer);
    /* (a failed read comes before all other faults) */
    if (stream->reading != PNMPIPE_OK)
        return tell(answer, stream->reading);
    /* (and a failed write after those of the input and of tools) */
    if (stream->is_lost && is_of_output(answer->code))
        return tell(answer, PNMPIPE_OUTPUT_WRITE_FAILED);
    return answer->code;
}

uint32_t pnmpipe_run_fd(const char *chain, size_t chain_length, uint32_t form, int from, int to,
                        struct pnmpipe_answer *answer) {
    struct pnmpipe_answer unused;
    struct stream stream = {0};
    uint32_t code;
    uint8_t no_room;
    if (is_missing(chain, chain_length))
        return refuse(answer);
    if (answer == NULL)
        answer = &unused;
    /* (where the call is refused, nothing is read: of no input at all that is told, or that there is none) */
    code = pnm_c_run(bytes_of(chain), chain_length, form, bytes_of(NULL), 0, &no_room, 0, answer);
    if (code != PNMPIPE_INPUT_EMPTY_INPUT)
        return code;
    stream.chain = bytes_of(chain);
    stream.chain_length = chain_length;
    stream.form = form;
    stream.from = from;
    stream.to = to;
    code = run_stream(&stream, answer);
    answer->size = 0;
    free(stream.buffer);
    return code;
}

const char *pnmpipe_code_name(uint32_t code) {
    switch (code) {
    /* make tables writes codes: case PNMPIPE_{constant}: return "{printed}"; */
    case PNMPIPE_OK: return "Ok";
    case PNMPIPE_BAD_FORM: return "BadForm";
    case PNMPIPE_BAD_TEXT: return "BadText";
    case PNMPIPE_ROOM: return "Room";
    case PNMPIPE_NULL: return "Null";
    case PNMPIPE_CHAIN_EMPTY: return "Empty";
    case PNMPIPE_CHAIN_TOO_LONG: return "TooLong";
    case PNMPIPE_CHAIN_TOO_MANY: return "TooMany";
    case PNMPIPE_CHAIN_EMPTY_STAGE: return "EmptyStage";
    case PNMPIPE_CHAIN_UNKNOWN_TOOL: return "UnknownTool";
    case PNMPIPE_CHAIN_UNKNOWN_OPTION: return "UnknownOption";
    case PNMPIPE_CHAIN_MISSING_VALUE: return "MissingValue";
    case PNMPIPE_CHAIN_BAD_VALUE: return "BadValue";
    case PNMPIPE_CHAIN_CONFLICT: return "Conflict";
    case PNMPIPE_CHAIN_MISSING_ARGUMENT: return "MissingArgument";
    case PNMPIPE_CHAIN_EXTRA_ARGUMENT: return "ExtraArgument";
    case PNMPIPE_INPUT_EMPTY_INPUT: return "EmptyInput";
    case PNMPIPE_INPUT_BAD_MAGIC: return "BadMagic";
    case PNMPIPE_INPUT_HEADER_CUT: return "HeaderCut";
    case PNMPIPE_INPUT_TOO_LONG: return "TooLong";
    case PNMPIPE_INPUT_BAD_NUMBER: return "BadNumber";
    case PNMPIPE_INPUT_ZERO_SIZE: return "ZeroSize";
    case PNMPIPE_INPUT_TOO_LARGE: return "TooLarge";
    case PNMPIPE_INPUT_BAD_MAXVAL: return "BadMaxval";
    case PNMPIPE_INPUT_BAD_PAM_LINE: return "BadPamLine";
    case PNMPIPE_INPUT_DUPLICATE_FIELD: return "DuplicateField";
    case PNMPIPE_INPUT_MISSING_FIELD: return "MissingField";
    case PNMPIPE_INPUT_RASTER_CUT: return "RasterCut";
    case PNMPIPE_INPUT_SAMPLE_ABOVE_MAXVAL: return "SampleAboveMaxval";
    case PNMPIPE_INPUT_BAD_SAMPLE: return "BadSample";
    case PNMPIPE_INPUT_PLAIN_IN_STREAM: return "PlainInStream";
    case PNMPIPE_INPUT_READ_FAILED: return "ReadFailed";
    case PNMPIPE_TOOL_CUT_OUTSIDE: return "CutOutside";
    case PNMPIPE_TOOL_CHANNEL_OUTSIDE: return "ChannelOutside";
    case PNMPIPE_TOOL_TOO_LARGE: return "TooLarge";
    case PNMPIPE_TOOL_OUT_OF_ORDER: return "OutOfOrder";
    case PNMPIPE_OUTPUT_WRITE_FAILED: return "WriteFailed";
    case PNMPIPE_OUTPUT_OUT_OF_ORDER: return "OutOfOrder";
    case PNMPIPE_OUTPUT_BROKEN: return "Broken";
    case PNMPIPE_OUTPUT_SECOND_PLAIN: return "SecondPlain";
    case PNMPIPE_OUTPUT_PLAIN_PAM: return "PlainPam";
    case PNMPIPE_CHAIN_MEMORY: return "Memory";
    case PNMPIPE_INPUT_MEMORY: return "Memory";
    case PNMPIPE_TOOL_MEMORY: return "Memory";
    case PNMPIPE_OUTPUT_MEMORY: return "Memory";
    /* up to here */
    default: return "Unknown";
    }
}
