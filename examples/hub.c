/*
 * Checks a list of row sets against the tables of an image: hub IMAGE < list
 * The list is a text with a line for each set: the row number of each table, 0 for none. A word `set` before them
 * and all from a bar on are passed over, and so are lines that begin with another word: what the listing program
 * prints is such a text.
 * It prints `right`, or `entry` with the place of the first bad entry, from 0, and its line, or `missing` with the
 * row numbers of a set that is not listed, and ends with 0, 1 or 2. A refusal ends it with 3, any error with 4.
 */
#include "harbour.h"

#include <ctype.h>
#include <inttypes.h>
#include <stdbool.h>
#include <stdio.h>
#include <stdlib.h>
#include <string.h>

#define MOST_BYTES 65536
#define MOST_CELLS 8192
#define MOST_LINE 4096

enum { RIGHT, ENTRY, MISSING, REFUSED, ERROR };

/* What load gives: the catalogue's words, and the cells. */
static uint64_t catalogue[34];
static uint64_t cells[MOST_CELLS];

/* The words of the listed keys, and the line of each. */
static uint64_t *low, *high;
static size_t *lines;
static size_t count, room;

/* Reads the image of a file into the catalogue and the cells. */
static int load(const char *name)
{
    static uint8_t image[MOST_BYTES + 1];
    FILE *file = fopen(name, "rb");
    size_t length = file ? fread(image, 1, sizeof image, file) : 0;
    if (!file || ferror(file)) {
        fprintf(stderr, "%s cannot be read\n", name);
        return ERROR;
    }
    fclose(file);
    if (length > MOST_BYTES) {
        fprintf(stderr, "%s is too long for an image\n", name);
        return ERROR;
    }
    uint64_t answer = harbour_load(image, length, cells, MOST_CELLS, catalogue, 34, NULL, 0);
    if (answer == 0)
        return RIGHT;
    printf("refused %" PRIu64 " %" PRIu64 "\n", answer % 32, answer / 32);
    return REFUSED;
}

/* Takes in one more key. */
static bool keep(const uint64_t key[2], size_t line)
{
    if (count == room) {
        room = room ? 2 * room : 1024;
        uint64_t *more_low = realloc(low, room * sizeof *low);
        low = more_low ? more_low : low;
        uint64_t *more_high = realloc(high, room * sizeof *high);
        high = more_high ? more_high : high;
        size_t *more_lines = realloc(lines, room * sizeof *lines);
        lines = more_lines ? more_lines : lines;
        if (!more_low || !more_high || !more_lines)
            return false;
    }
    low[count] = key[0];
    high[count] = key[1];
    lines[count] = line;
    count++;
    return true;
}

/* The words of the key of a line's row numbers, 12 bits each and five in the first word, or why it is no such line. */
static const char *read_set(const char *text, uint64_t key[2])
{
    uint64_t table = 0;
    key[0] = key[1] = 0;
    while (true) {
        text += strspn(text, " \t\r\n");
        if (*text == '\0' || *text == '|')
            return table == catalogue[1] ? NULL : "has too few row numbers";
        if (!isdigit((unsigned char)*text))
            return "has something other than row numbers";
        char *end;
        uint64_t row = strtoull(text, &end, 10);
        if (row > 4095)
            return "has a row number above 4,095";
        if (table == catalogue[1])
            return "has too many row numbers";
        key[table / 5] |= row << 12 * (table % 5);
        table++;
        text = end;
    }
}

/* Reads the whole list. */
static int read_list(void)
{
    static char text[MOST_LINE];
    for (size_t line = 1; fgets(text, sizeof text, stdin); line++) {
        const char *why = "is too long", *start = text + strspn(text, " \t");
        uint64_t key[2];
        if (strlen(text) + 1 < sizeof text || text[sizeof text - 2] == '\n') {
            size_t word = strcspn(start, " \t\r\n|");
            if (isalpha((unsigned char)*start) && !(word == 3 && strncmp(start, "set", 3) == 0))
                continue;
            why = read_set(isalpha((unsigned char)*start) ? start + 3 : start, key);
        }
        if (why == NULL && !keep(key, line))
            why = "has no room in memory";
        if (why) {
            fprintf(stderr, "line %zu %s\n", line, why);
            return ERROR;
        }
    }
    return ferror(stdin) ? ERROR : RIGHT;
}

/* Checks the list and prints the answer. */
static int check(void)
{
    uint64_t named[2];
    uint64_t answer = harbour_check_list(catalogue, 34, cells, MOST_CELLS, low, count, high, count, named, 2);
    switch (answer) {
    case 32:
        puts("right");
        return RIGHT;
    case 64:
        printf("entry %" PRIu64 " %zu\n", named[0], lines[named[0]]);
        return ENTRY;
    case 96:
        fputs("missing", stdout);
        for (uint64_t table = 0; table < catalogue[1]; table++)
            printf(" %" PRIu64, named[table / 5] >> 12 * (table % 5) & 4095);
        putchar('\n');
        return MISSING;
    default:
        printf("refused %" PRIu64 "\n", answer);
        return REFUSED;
    }
}

int main(int argc, char **argv)
{
    if (argc != 2) {
        fputs("use: hub IMAGE < list\n", stderr);
        return ERROR;
    }
    int status = load(argv[1]);
    if (status == RIGHT)
        status = read_list();
    if (status == RIGHT)
        status = check();
    free(low);
    free(high);
    free(lines);
    return status;
}
