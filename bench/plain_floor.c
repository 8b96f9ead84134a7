/* Writes the inverted image of standard input as plain text, from a table of the texts of all samples. The arguments:
 * the digit of the magic, width, height and maxval. */
#include <stdio.h>
#include <stdlib.h>
#include <string.h>
#include <unistd.h>

enum { ROOM = 65536, LINE = 70 };

static unsigned char in[65536], out[ROOM + 64], texts[65536][8];
static size_t held, taken, filled;

static void flush(void) {
    for (size_t done = 0; done < filled;) {
        ssize_t count = write(1, out + done, filled - done);
        if (count <= 0) exit(1);
        done += count;
    }
    filled = 0;
}

static unsigned next(void) {
    if (taken == held) {
        ssize_t count = read(0, in, sizeof in);
        if (count <= 0) exit(1);
        held = count;
        taken = 0;
    }
    return in[taken++];
}

int main(int count, char **words) {
    int kind = atoi(words[1]), maxval = atoi(words[4]);
    long width = atol(words[2]), height = atol(words[3]), samples = width * (kind == 6 ? 3 : 1);
    for (int lines = kind == 4 ? 2 : 3; lines > 0;) lines -= next() == '\n';
    for (int sample = 0; sample <= maxval; sample++) {
        char text[16];
        int length = sprintf(text, " %d", kind == 4 ? 1 - sample : sample);
        memcpy(texts[sample], text, 7);
        texts[sample][7] = length;
    }
    filled = sprintf((char *)out, "P%d\n%ld %ld\n", kind - 3, width, height);
    if (kind != 4) filled += sprintf((char *)out + filled, "%d\n", maxval);
    for (long y = 0; y < height; y++) {
        int column = 0;
        unsigned byte = 0;
        for (long x = 0; x < samples; x++) {
            int sample;
            if (kind == 4) {
                if (x % 8 == 0) byte = next();
                sample = byte >> (7 - x % 8) & 1;
            } else if (maxval < 256) {
                sample = maxval - next();
            } else {
                sample = next() * 256;
                sample = maxval - sample - next();
            }
            int length = texts[sample][7];
            memcpy(out + filled, texts[sample], 8);
            if (x == 0) {
                memcpy(out + filled, texts[sample] + 1, 7);
                column = --length;
            } else if (column + length > LINE) {
                out[filled] = '\n';
                column = length - 1;
            } else {
                column += length;
            }
            filled += length;
            if (filled > ROOM) flush();
        }
        out[filled++] = '\n';
    }
    flush();
}
