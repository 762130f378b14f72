/* Reads a model from standard input, and writes its depth image or its refusal word to standard output:
 *     cc bench/depth.c crates/depth_c/out/libdepth_c.a -o depth */
#include <stdio.h>

#include "depth.h"

/* One byte more than any lawful input has, so that a longer one is seen to be too long. */
static uint8_t input[DEPTH_MOST_INPUT + 1];
static uint8_t output[DEPTH_MOST_OUTPUT];

int main(void) {
    size_t read = fread(input, 1, sizeof input, stdin);
    if (ferror(stdin)) {
        perror("standard input");
        return 1;
    }
    size_t written = depth_render(input, read, output, sizeof output);
    if (fwrite(output, 1, written, stdout) != written || fflush(stdout) != 0) {
        perror("standard output");
        return 1;
    }
    return 0;
}
