/*
 * Checks the image on standard input.
 * It prints `good`, or `refused`, the number of the refusal and its place.
 */
#include "harbour.h"

#include <inttypes.h>
#include <stdio.h>

/* The most bytes that are read; one more shows that there are too many. */
#define MOST 65536

static uint8_t image[MOST + 1];

int main(void)
{
    size_t length = fread(image, 1, sizeof image, stdin);
    if (ferror(stdin)) {
        fputs("standard input cannot be read\n", stderr);
        return 2;
    }
    if (length > MOST) {
        puts("input too long");
        return 1;
    }
    uint64_t answer = harbour_check(image, length);
    if (answer == 0) {
        puts("good");
        return 0;
    }
    printf("refused %" PRIu64 " %" PRIu64 "\n", answer % 32, answer / 32);
    return 1;
}
