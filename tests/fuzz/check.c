/*
 * A fuzz target for harbour_check: whatever the bytes are, it gives the answer of the plain reading below.
 * The reading is instrumented and leads the fuzzer; behind the image lies a page that nobody may read.
 */
#include "harbour.h"

#include <inttypes.h>
#include <stdbool.h>
#include <stdio.h>
#include <stdlib.h>
#include <string.h>
#include <sys/mman.h>
#include <unistd.h>

#define MOST_CELLS 8192

/* A reading under way: the next byte, and the refusal with its place once there is one. */
struct reading {
    const uint8_t *bytes;
    size_t length;
    size_t at;
    uint64_t answer;
};

/* Refuses at a place. */
static bool refuse(struct reading *r, uint64_t refusal, size_t place)
{
    r->answer = place * 32 + refusal;
    return false;
}

/* Reads a number of at most nine bytes: 1 where it ends too early, 2 where its last group is a surplus zero, 17 where it goes on. */
static bool number(struct reading *r, uint64_t *value)
{
    size_t start = r->at;
    *value = 0;
    for (unsigned group = 0; group < 9; group++) {
        if (r->at == r->length)
            return refuse(r, 1, start);
        uint8_t byte = r->bytes[r->at++];
        *value |= (uint64_t)(byte & 127) << (7 * group);
        if (byte < 128)
            return byte == 0 && group > 0 ? refuse(r, 2, start) : true;
    }
    return refuse(r, 17, start);
}

/* Reads a number that has to lie in a range. */
static bool ranged(struct reading *r, uint64_t low, uint64_t high, uint64_t refusal, uint64_t *value)
{
    size_t start = r->at;
    return number(r, value) && (*value < low || *value > high ? refuse(r, refusal, start) : true);
}

/* Is a row all null? */
static bool all_null(const uint64_t *row, int width)
{
    for (int cell = 0; cell < width; cell++)
        if (row[cell] != 0)
            return false;
    return true;
}

/* Does a row rise above the one before? */
static bool rises(const uint64_t *before, const uint64_t *row, int width)
{
    for (int cell = 0; cell < width; cell++)
        if (before[cell] != row[cell])
            return before[cell] < row[cell];
    return false;
}

/* Reads the rows of a table: each number first, then, in version 2, whether it is all null, then its order. */
static bool rows(struct reading *r, uint64_t version, int width, uint64_t count)
{
    static uint64_t cells[2][64];
    for (uint64_t row = 0; row < count; row++) {
        size_t start = r->at;
        for (int cell = 0; cell < width; cell++)
            if (!number(r, &cells[row % 2][cell]))
                return false;
        if (version == 2 && all_null(cells[row % 2], width))
            return refuse(r, 21, start);
        if (row > 0 && !rises(cells[(row + 1) % 2], cells[row % 2], width))
            return refuse(r, 7, start);
    }
    return true;
}

/* Reads a table: its scheme, its row count, its rows. The highest row count of a table is kept. */
static bool table(struct reading *r, uint64_t version, uint64_t m, uint64_t *used, uint64_t *longest)
{
    uint64_t scheme, count;
    if (!ranged(r, 1, ((uint64_t)1 << m) - 1, 5, &scheme))
        return false;
    size_t start = r->at;
    if (!ranged(r, 0, version == 1 ? 255 : 4095, 6, &count))
        return false;
    *longest = count > *longest ? count : *longest;
    int width = __builtin_popcountll(scheme);
    *used += count * (uint64_t)width;
    return *used > MOST_CELLS ? refuse(r, 8, start) : rows(r, version, width, count);
}

/* The answer to an image. */
static uint64_t expected(const uint8_t *bytes, size_t length)
{
    struct reading r = { bytes, length, 0, 0 };
    uint64_t version, m, n, used = 0, longest = 0;
    if (!ranged(&r, 1, 2, 3, &version) || !ranged(&r, 1, 63, 4, &m) || !ranged(&r, 1, 8, 4, &n))
        return r.answer;
    for (uint64_t t = 0; t < n; t++)
        if (!table(&r, version, m, &used, &longest))
            return r.answer;
    if (r.at < length)
        refuse(&r, 9, r.at);
    else if (version == 2 && longest <= 255)
        refuse(&r, 20, 0);
    return r.answer;
}

/* Room for an image whose last byte has a page behind it that faults when it is read. */
static uint8_t *room_before_wall(size_t most)
{
    static uint8_t *wall;
    if (wall == NULL) {
        size_t page = (size_t)sysconf(_SC_PAGESIZE);
        uint8_t *start = mmap(NULL, most + page, PROT_READ | PROT_WRITE, MAP_PRIVATE | MAP_ANONYMOUS, -1, 0);
        if (start == MAP_FAILED || mprotect(start + most, page, PROT_NONE) != 0)
            abort();
        wall = start + most;
    }
    return wall;
}

int LLVMFuzzerTestOneInput(const uint8_t *data, size_t length)
{
    const size_t most = 1 << 20;
    if (length > most)
        return 0;
    uint8_t *image = room_before_wall(most) - length;
    memcpy(image, data, length);
    uint64_t answer = harbour_check(image, length);
    uint64_t wanted = expected(data, length);
    if (answer != wanted || memcmp(image, data, length) != 0) {
        fprintf(stderr, "answer %" PRIu64 " instead of %" PRIu64 "\n", answer, wanted);
        abort();
    }
    return 0;
}
