/*
 * Calls the C door on the edges that the rules name, each with its answer
 * written down by hand, and prints how many passed and failed.
 */
#include "harbour.h"

#include <inttypes.h>
#include <stdio.h>
#include <string.h>

/* One edge: the image and the refusal (0 for good) with its place. */
struct edge {
    const char *name;
    const char *bytes;
    size_t length;
    uint64_t refusal;
    uint64_t place;
};

/* An edge from a string of bytes; the string's own closing zero is no part of it. */
#define EDGE(name, bytes, refusal, place) { name, bytes, sizeof(bytes) - 1, refusal, place }

static const struct edge edges[] = {
    EDGE("empty", "", 1, 0),
    EDGE("version 2 alone", "\x02", 1, 1),
    EDGE("version 3", "\x03", 3, 0),
    EDGE("version 0", "\x00", 3, 0),
    EDGE("no rows", "\x01\x01\x01\x01\x00", 0, 0),
    EDGE("one null row", "\x01\x01\x01\x01\x01\x00", 0, 0),
    EDGE("the version alone", "\x01", 1, 1),
    EDGE("64 attributes", "\x01\x40", 4, 1),
    EDGE("63 attributes", "\x01\x3F", 1, 2),
    EDGE("no attributes", "\x01\x00", 4, 1),
    EDGE("nine tables", "\x01\x01\x09", 4, 2),
    EDGE("eight tables", "\x01\x01\x08", 1, 3),
    EDGE("no tables", "\x01\x01\x00", 4, 2),
    EDGE("attribute 1 of 1", "\x01\x01\x01\x02", 5, 3),
    EDGE("scheme 0", "\x01\x01\x01\x00", 5, 3),
    EDGE("256 rows", "\x01\x01\x01\x01\x80\x02", 6, 4),
    EDGE("255 rows and no cells", "\x01\x01\x01\x01\xFF\x01", 1, 6),
    EDGE("4,095 rows in version 1", "\x01\x01\x01\x01\xFF\x1F", 6, 4),
    EDGE("256 rows in version 2 and no cells", "\x02\x01\x01\x01\x80\x02", 1, 6),
    EDGE("4,095 rows in version 2 and no cells", "\x02\x01\x01\x01\xFF\x1F", 1, 6),
    EDGE("4,096 rows in version 2", "\x02\x01\x01\x01\x80\x20", 6, 4),
    EDGE("no rows in version 2", "\x02\x01\x01\x01\x00", 20, 0),
    EDGE("one byte behind in version 2", "\x02\x01\x01\x01\x00\x00", 9, 5),
    EDGE("one row in version 2", "\x02\x01\x01\x01\x01\x05", 20, 0),
    EDGE("one null row in version 2", "\x02\x01\x01\x01\x01\x00", 21, 5),
    EDGE("a null row after a row in version 2", "\x02\x01\x01\x01\x02\x01\x00", 21, 6),
    EDGE("a null beside a value in version 2", "\x02\x02\x01\x03\x01\x00\x05", 20, 0),
    EDGE("the same row twice in version 2", "\x02\x01\x01\x01\x02\x05\x05", 7, 6),
    EDGE("the same row twice", "\x01\x01\x01\x01\x02\x05\x05", 7, 6),
    EDGE("rows that rise", "\x01\x01\x01\x01\x02\x05\x06", 0, 0),
    EDGE("one byte behind", "\x01\x01\x01\x01\x00\x00", 9, 5),
    EDGE("code 127", "\x01\x01\x01\x01\x01\x7F", 0, 0),
    EDGE("code 128", "\x01\x01\x01\x01\x01\x80\x01", 0, 0),
    EDGE("code 2^63 - 1", "\x01\x01\x01\x01\x01\xFF\xFF\xFF\xFF\xFF\xFF\xFF\xFF\x7F", 0, 0),
    EDGE("80 00", "\x01\x01\x01\x01\x01\x80\x00", 2, 5),
    EDGE("nine bytes 80", "\x01\x01\x01\x01\x01\x80\x80\x80\x80\x80\x80\x80\x80\x80", 17, 5),
    EDGE("eight bytes 80 and 00", "\x01\x01\x01\x01\x01\x80\x80\x80\x80\x80\x80\x80\x80\x00", 2, 5),
    EDGE("eight bytes 80", "\x01\x01\x01\x01\x01\x80\x80\x80\x80\x80\x80\x80\x80", 1, 5),
    EDGE("the sample",
         "\x01\x03\x03\x03\x02\x02\x0B\x03\x15\x06\x02\x0B\x08\x8B\x80\x80\x80\x10\x0A\x05\x02\x02\x08\x03\x00", 0, 0),
};

static unsigned passed;
static unsigned failed;

/* Compares one answer with the one written down. */
static void expect(const char *name, uint64_t answer, uint64_t refusal, uint64_t place)
{
    if (answer == place * 32 + refusal) {
        passed++;
    } else {
        failed++;
        printf("%s: refusal %" PRIu64 " at %" PRIu64 " instead of %" PRIu64 " at %" PRIu64 "\n",
               name, answer % 32, answer / 32, refusal, place);
    }
}

/* Writes a number below 16,384 in its shortest form; gives the place behind it. */
static size_t put(uint8_t *image, size_t place, unsigned number)
{
    if (number > 127) {
        image[place++] = (uint8_t)(number % 128 + 128);
        number /= 128;
    }
    image[place++] = (uint8_t)number;
    return place;
}

/* Makes one table of all 63 attributes with so many rows; gives its length. */
static size_t full_width(uint8_t *image, unsigned rows)
{
    static const uint8_t front[] = { 1, 63, 1, 0xFF, 0xFF, 0xFF, 0xFF, 0xFF, 0xFF, 0xFF, 0xFF, 0x7F };
    memcpy(image, front, sizeof front);
    size_t place = put(image, sizeof front, rows);
    for (unsigned row = 1; row <= rows; row++) {
        place = put(image, place, row);
        memset(image + place, 0, 62);
        place += 62;
    }
    return place;
}

/* Makes one table of one attribute with so many rows, whose codes rise from the first; gives its length. */
static size_t column(uint8_t *image, uint8_t version, unsigned first, unsigned rows)
{
    const uint8_t front[] = { version, 1, 1, 1 };
    memcpy(image, front, sizeof front);
    size_t place = put(image, sizeof front, rows);
    for (unsigned row = 0; row < rows; row++)
        place = put(image, place, first + row);
    return place;
}

int main(void)
{
    static uint8_t image[16384];
    for (size_t i = 0; i < sizeof edges / sizeof edges[0]; i++) {
        const struct edge *edge = &edges[i];
        uint8_t exact[64];
        memcpy(exact, edge->bytes, edge->length);
        expect(edge->name, harbour_check(exact, edge->length), edge->refusal, edge->place);
    }
    expect("no pointer and length 0", harbour_check(NULL, 0), 1, 0);
    expect("63 attributes, 130 rows", harbour_check(image, full_width(image, 130)), 0, 0);
    expect("63 attributes, 131 rows", harbour_check(image, full_width(image, 131)), 8, 12);
    expect("255 rows", harbour_check(image, column(image, 1, 0, 255)), 0, 0);
    expect("256 rows with cells", harbour_check(image, column(image, 1, 1, 256)), 6, 4);
    expect("255 rows in version 2", harbour_check(image, column(image, 2, 1, 255)), 20, 0);
    expect("256 rows in version 2", harbour_check(image, column(image, 2, 1, 256)), 0, 0);
    expect("256 rows in version 2, the first null", harbour_check(image, column(image, 2, 0, 256)), 21, 6);
    expect("4,095 rows in version 2", harbour_check(image, column(image, 2, 1, 4095)), 0, 0);
    expect("4,096 rows in version 2, with cells", harbour_check(image, column(image, 2, 1, 4096)), 6, 4);
    printf("%u passed, %u failed\n", passed, failed);
    return failed == 0 ? 0 : 1;
}
