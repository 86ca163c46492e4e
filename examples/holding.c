/*
 * Lists the row sets that hold one row of the image on standard input: holding TABLE ROW < IMAGE
 * Tables are numbered from 0, the rows of a table from 1. It prints the lines of the listing program
 * for these sets, with the totals of their stream, or `refused 19` where there is no such row.
 * The exit status is 0 then too; it is 2, with nothing on standard output, where the arguments are
 * not two numbers below 2^64 or standard input cannot be read.
 */
#include "lines.h"

#include <errno.h>
#include <stdlib.h>
#include <string.h>

/* Opens the stream of the sets that hold the row: its row tests * 32 + refusal. */
static uint64_t open_row(uint64_t table, uint64_t row)
{
    return harbour_open_holding(catalogue, 34, cells, MOST_CELLS, low, RECORDS, high, RECORDS,
                                left, RECORDS, right, RECORDS, table, row, record, 5);
}

/* Asks for the next of them, in at most so many trials. */
static uint64_t next_of_row(uint64_t budget)
{
    return harbour_next_holding(catalogue, 34, cells, MOST_CELLS, low, RECORDS, high, RECORDS,
                                left, RECORDS, right, RECORDS, record, 5, budget, padded, 63, result, 5);
}

/* Reads a number in decimal digits; says whether it is one. */
static bool reads(const char *text, uint64_t *number)
{
    errno = 0;
    *number = strtoull(text, NULL, 10);
    return *text != '\0' && strspn(text, "0123456789") == strlen(text) && errno == 0;
}

int main(int count, char **words)
{
    uint64_t table, row;
    if (count != 3 || !reads(words[1], &table) || !reads(words[2], &row)) {
        fputs("usage: holding TABLE ROW < IMAGE\n", stderr);
        return 2;
    }
    int status;
    if (!loads(&status))
        return status;
    uint64_t opened = open_row(table, row);
    if (opened % 32 != 0) {
        printf("refused %" PRIu64 "\n", opened % 32);
        return 0;
    }
    print_tables(opened / 32);
    drain(next_of_row);
    return 0;
}
