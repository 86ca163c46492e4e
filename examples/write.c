/*
 * Builds three small tables and writes their image to standard output.
 * They are heights by tick, sensors by tick and number, and notes by number.
 */
#include "harbour.h"

#include <inttypes.h>
#include <stdio.h>

/* The attributes, each by its bit in a scheme. */
enum { TICK = 1 << 0, HEIGHT = 1 << 1, SENSOR = 1 << 2 };

/* A cell's code: 0 where there is no value, else the value plus 1. */
#define NONE 0
#define VALUE(x) ((uint64_t)(x) + 1)

/* Three attributes and three tables; eight schemes and eight row counts, of which those behind the third are ignored. */
static const uint64_t given[18] = {
    3, 3,
    TICK | HEIGHT, HEIGHT | SENSOR, TICK | SENSOR, 0, 0, 0, 0, 0,
    2, 2, 2, 0, 0, 0, 0, 0,
};

/* The rows, table by table. A table's rows rise, and a row has its cells by rising attribute. */
static const uint64_t cells[] = {
    VALUE(1), VALUE(10),
    VALUE(2), VALUE(20),
    VALUE(10), VALUE(7),
    VALUE(4294967306), VALUE(9),
    VALUE(1), VALUE(7),
    VALUE(2), NONE,
};

int main(void)
{
    uint64_t catalogue[34];
    uint8_t image[256];
    uint64_t answer = harbour_make_catalogue(given, 18, catalogue, 34);
    if (answer == 0)
        answer = harbour_write(catalogue, 34, cells, sizeof cells / sizeof cells[0], image, sizeof image);
    if (answer % 32 != 0) {
        fprintf(stderr, "refused %" PRIu64 "\n", answer % 32);
        return 1;
    }
    size_t length = (size_t)(answer / 32);
    if (fwrite(image, 1, length, stdout) != length) {
        fputs("standard output cannot be written\n", stderr);
        return 2;
    }
    return 0;
}
