/*
 * What the examples that list have in common: the memory that they lend, the image on standard input,
 * and the lines of the listing program.
 */
#ifndef LINES_H
#define LINES_H

#include "harbour.h"

#include <inttypes.h>
#include <stdbool.h>
#include <stdio.h>

#define MOST_BYTES 65536
#define MOST_CELLS 8192
#define RECORDS 4096
#define BUDGET 3

/* What load gives: the catalogue's words, and the cells. */
static uint64_t catalogue[34];
static uint64_t cells[MOST_CELLS];

/* What a stream works in, from open to its end: the store, the record, which may name a row, a padded row and a result. */
static uint64_t low[RECORDS];
static uint64_t high[RECORDS];
static uint16_t left[RECORDS];
static uint16_t right[RECORDS];
static uint64_t record[5];
static uint64_t padded[63];
static uint64_t result[5];

/* A call that asks for the next set, in at most so many trials. */
typedef uint64_t next_call(uint64_t budget);

/* Loads the image on standard input. Where there is none to list it says why, and gives the exit status. */
static bool loads(int *status)
{
    static uint8_t image[MOST_BYTES + 1];
    size_t length = fread(image, 1, sizeof image, stdin);
    *status = 0;
    if (ferror(stdin)) {
        fputs("standard input cannot be read\n", stderr);
        *status = 2;
        return false;
    }
    if (length > MOST_BYTES) {
        puts("input too long");
        return false;
    }
    uint64_t loaded = harbour_load(image, length, cells, MOST_CELLS, catalogue, 34, NULL, 0);
    if (loaded != 0)
        printf("refused %" PRIu64 " %" PRIu64 "\n", loaded % 32, loaded / 32);
    return loaded == 0;
}

/* The first line: attributes, tables, rows of all tables, and open's row tests. */
static void print_tables(uint64_t tests)
{
    uint64_t rows = 0;
    for (uint64_t table = 0; table < catalogue[1]; table++)
        rows += catalogue[10 + table];
    printf("tables %" PRIu64 " %" PRIu64 " %" PRIu64 " %" PRIu64 "\n", catalogue[0], catalogue[1], rows, tests);
}

/* The row number of a table in a key: 12 bits each, tables 0 to 4 in its first word and the others in its second. */
static uint64_t row_in(const uint64_t key[2], uint64_t table)
{
    return key[table / 5] >> 12 * (table % 5) & 4095;
}

/* The line of a set: the row number of each table, a bar, and the values; a code is a value plus 1, and 0 for none. */
static void print_set(void)
{
    fputs("set", stdout);
    for (uint64_t table = 0; table < catalogue[1]; table++)
        printf(" %" PRIu64, row_in(result, table));
    fputs(" |", stdout);
    for (uint64_t a = 0; a < catalogue[0]; a++) {
        if (padded[a] == 0)
            fputs(" -", stdout);
        else
            printf(" %" PRIu64, padded[a] - 1);
    }
    putchar('\n');
}

/* Drains a stream and prints it, with the totals of all calls behind it. */
static void drain(next_call *next_set)
{
    uint64_t trials = 0, tests = 0, looks = 0;
    while (true) {
        uint64_t answer = next_set(BUDGET);
        trials += result[2];
        tests += result[3];
        looks += result[4];
        if (answer == 32)
            print_set();
        if (answer == 64)
            printf("end %" PRIu64 " %" PRIu64 " %" PRIu64 " %" PRIu64 "\n", record[1], trials, tests, looks);
        if (answer < 32)
            printf("refused %" PRIu64 " %" PRIu64 "\n", answer, record[1]);
        if (answer == 64 || answer < 32)
            return;
    }
}

#endif
