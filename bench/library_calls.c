/* Times calls over many images of one size:
 *
 *     library_calls WAY CHAIN IMAGES BYTES ROUNDS OUT [PROGRAM | WIDTH HEIGHT BANDS]
 *
 * IMAGES holds images of BYTES bytes each, one after another. Each round passes all of them through the chain, and its
 * calls a second are printed; the last image's result is left in OUT. WAY is `memory`, a call of the library from
 * memory to memory; `files`, the same from a file to a file, with its open(2), read(2) and write(2); `process`, a
 * process of PROGRAM for each file; or `vips`, the tools by libvips from samples in memory to samples in memory. */
#define _GNU_SOURCE
#include <fcntl.h>
#include <pnmpipe.h>
#include <spawn.h>
#include <stdio.h>
#include <stdlib.h>
#include <string.h>
#include <sys/wait.h>
#include <time.h>
#include <unistd.h>

#ifdef WITH_VIPS
#include <vips/vips.h>
#endif

#define ROOM (4 << 20)

extern char **environ;

static char **words;
static const char *chain;
static uint8_t room[ROOM];
/* the names of the files that hold the image and its result */
static char from[4096], to[4096];

static void fail(const char *what) {
    fprintf(stderr, "library_calls: %s: %s\n", chain, what);
    exit(1);
}

static double now(void) {
    struct timespec at;
    clock_gettime(CLOCK_MONOTONIC, &at);
    return (double)at.tv_sec + (double)at.tv_nsec / 1e9;
}

static void write_file(const char *name, const uint8_t *bytes, size_t size) {
    int file = open(name, O_WRONLY | O_CREAT | O_TRUNC, 0644);
    if (file < 0 || write(file, bytes, size) != (ssize_t)size || close(file))
        fail(name);
}

static size_t read_file(const char *name, uint8_t *bytes, size_t most) {
    int file = open(name, O_RDONLY);
    ssize_t size = file < 0 ? -1 : read(file, bytes, most);
    if (size < 0 || close(file))
        fail(name);
    return (size_t)size;
}

static size_t by_memory(const uint8_t *image, size_t size) {
    struct pnmpipe_answer answer;
    if (pnmpipe_run(chain, strlen(chain), PNMPIPE_RAW, image, size, room, sizeof room, &answer))
        fail(pnmpipe_code_name(answer.code));
    return answer.size;
}

static size_t by_files(const uint8_t *image, size_t size) {
    static uint8_t given[ROOM];
    (void)image;
    size = by_memory(given, read_file(from, given, sizeof given));
    write_file(to, room, size);
    return size;
}

static size_t by_process(const uint8_t *image, size_t size) {
    char *run[] = {words[7], words[2], NULL};
    posix_spawn_file_actions_t files;
    pid_t child;
    int status;
    (void)image;
    posix_spawn_file_actions_init(&files);
    posix_spawn_file_actions_addopen(&files, 0, from, O_RDONLY, 0);
    posix_spawn_file_actions_addopen(&files, 1, to, O_WRONLY | O_CREAT | O_TRUNC, 0644);
    if (posix_spawn(&child, words[7], &files, NULL, run, environ) || waitpid(child, &status, 0) != child || status)
        fail("the program fails");
    posix_spawn_file_actions_destroy(&files);
    return size;
}

#ifdef WITH_VIPS
/* One tool of the chain: the next image, for which the one before is given back. */
static VipsImage *after(VipsImage *image, const char *tool) {
    VipsImage *made = NULL;
    int status = -1;
    if (!strcmp(tool, "pnminvert"))
        status = vips_invert(image, &made, NULL);
    else if (!strcmp(tool, "pamflip -r90"))
        status = vips_rot(image, &made, VIPS_ANGLE_D270, NULL);
    else if (!strcmp(tool, "pamflip -lr"))
        status = vips_flip(image, &made, VIPS_DIRECTION_HORIZONTAL, NULL);
    else if (!strcmp(tool, "pamcut -left 8"))
        status = vips_extract_area(image, &made, 8, 0, image->Xsize - 8, image->Ysize, NULL);
    if (status)
        fail(tool);
    g_object_unref(image);
    return made;
}

static size_t by_vips(const uint8_t *image, size_t size) {
    int width = atoi(words[7]), height = atoi(words[8]), bands = atoi(words[9]);
    size_t length = (size_t)width * (size_t)height * (size_t)bands;
    const uint8_t *samples_given = image + size - length;
    VipsImage *made = vips_image_new_from_memory(samples_given, length, width, height, bands, VIPS_FORMAT_UCHAR);
    char tools[256], *tool, *rest;
    void *samples;
    snprintf(tools, sizeof tools, "%s", chain);
    for (tool = strtok_r(tools, "|", &rest); tool; tool = strtok_r(NULL, "|", &rest)) {
        size_t end = strlen(tool);
        if (end && tool[end - 1] == ' ')
            tool[end - 1] = 0;
        made = after(made, tool + strspn(tool, " "));
    }
    samples = vips_image_write_to_memory(made, &length);
    if (!samples || length > sizeof room)
        fail("libvips writes nothing");
    memcpy(room, samples, length);
    g_free(samples);
    g_object_unref(made);
    return length;
}
static void start_vips(void) {
    if (VIPS_INIT(words[0]))
        fail("libvips doesn't start");
}
#else
static size_t by_vips(const uint8_t *image, size_t size) {
    (void)image;
    return size;
}

static void start_vips(void) {
    fail("it was compiled without libvips");
}
#endif

struct way {
    const char *name;
    int count;
    int is_of_files;
    size_t (*call)(const uint8_t *, size_t);
};

static const struct way *way_of(int count) {
    static const struct way ways[] = {
        {"memory", 7, 0, by_memory},
        {"files", 7, 1, by_files},
        {"process", 8, 1, by_process},
        {"vips", 10, 0, by_vips},
    };
    size_t at;
    for (at = 0; count > 1 && at < sizeof ways / sizeof *ways; at++)
        if (!strcmp(words[1], ways[at].name) && count == ways[at].count)
            return &ways[at];
    fail("wrong words");
    return NULL;
}

static uint8_t *images_of(const char *name, size_t *length) {
    FILE *file = fopen(name, "rb");
    uint8_t *images;
    if (!file || fseek(file, 0, SEEK_END) || !(images = malloc(*length = (size_t)ftell(file))))
        fail(name);
    rewind(file);
    if (fread(images, 1, *length, file) != *length || fclose(file))
        fail(name);
    return images;
}

/* How many seconds the calls of one round take, and the bytes of the last result. */
static double round_of(const struct way *way, const uint8_t *images, size_t length, size_t size, size_t *made) {
    double spent = 0;
    size_t at;
    for (at = 0; at < length; at += size) {
        double start;
        if (way->is_of_files)
            write_file(from, images + at, size);
        start = now();
        *made = way->call(images + at, size);
        spent += now() - start;
    }
    return spent;
}

int main(int count, char **given) {
    const struct way *way;
    size_t size, length, made = 0;
    uint8_t *images;
    int round;
    words = given;
    chain = count > 2 ? words[2] : "";
    way = way_of(count);
    if (way->call == by_vips)
        start_vips();
    images = images_of(words[3], &length);
    size = strtoul(words[4], NULL, 10);
    snprintf(from, sizeof from, "%s.from", words[6]);
    snprintf(to, sizeof to, "%s", words[6]);
    for (round = 0; round < atoi(words[5]); round++)
        printf("%.1f\n", (double)(length / size) / round_of(way, images, length, size, &made));
    if (!way->is_of_files)
        write_file(to, room, made);
    return 0;
}
