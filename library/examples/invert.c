/* Inverts the image of standard input: cc invert.c -lpnmpipe */
#include <pnmpipe.h>
#include <stdio.h>

static unsigned char image[16 << 20], inverted[16 << 20];

int main(void) {
    struct pnmpipe_answer answer;
    size_t length = fread(image, 1, sizeof image, stdin);
    if (pnmpipe_run("pnminvert", 9, PNMPIPE_RAW, image, length, inverted, sizeof inverted, &answer) != PNMPIPE_OK) {
        fprintf(stderr, "invert: %s\n", pnmpipe_code_name(answer.code));
        return 1;
    }
    return fwrite(inverted, 1, answer.size, stdout) != answer.size;
}
