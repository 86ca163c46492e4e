/*
 * Lists the row sets of the image on standard input, a few trials a call.
 * It prints the lines of the listing program: a small budget changes no answer and no total.
 */
#include "lines.h"

/* Opens the stream: its row tests * 32 + refusal. */
static uint64_t open_stream(void)
{
    return harbour_open(catalogue, 34, cells, MOST_CELLS, low, RECORDS, high, RECORDS,
                        left, RECORDS, right, RECORDS, record, 3);
}

/* Asks for the next set, in at most so many trials. */
static uint64_t next_set(uint64_t budget)
{
    return harbour_next(catalogue, 34, cells, MOST_CELLS, low, RECORDS, high, RECORDS,
                        left, RECORDS, right, RECORDS, record, 3, budget, padded, 63, result, 5);
}

int main(void)
{
    int status;
    if (!loads(&status))
        return status;
    print_tables(open_stream() / 32);
    drain(next_set);
    return 0;
}
