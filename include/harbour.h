/*
 * Harbour table images: the C door, and the calls on images, streams and lists.
 *
 * An image holds up to eight tables in one run of bytes. The door tells whether
 * an image is good, and if not, why and where.
 *
 *     uint64_t answer = harbour_check(bytes, length);
 *     if (answer == 0) {
 *         puts("good");
 *     } else {
 *         unsigned refusal = (unsigned)(answer % 32);
 *         uint64_t place = answer / 32;
 *         printf("refused %u %" PRIu64 "\n", refusal, place);
 *     }
 *
 * Link with the static library of the door: cc program.c libdoor.a
 * The other calls lie in another: cc program.c libabi.a, with libdoor.a behind it
 * where the door is called too.
 */
#ifndef HARBOUR_H
#define HARBOUR_H

#include <stddef.h>
#include <stdint.h>

#ifdef __cplusplus
extern "C" {
#endif

/*
 * Checks the image in the given bytes, with room for 8,192 cells.
 *
 * The answer is 0 for a good image, else place * 32 + refusal. The place counts
 * bytes from the image's first, which is 0; it is the first byte of the number at
 * fault, with refusals 7 and 21 of the row, with 9 of the surplus, and 0 with 20. The
 * first fault in reading order is reported. The bytes are only read, and nothing is
 * kept. With length 0 the pointer is not followed and may be NULL.
 *
 * An image's version is 2 where some table has more than 255 rows, and 1 otherwise. In
 * version 2 no row may be all null; a version 1 image that holds such rows is good.
 *
 * The refusals:
 *   1  the image ends inside a number, or where one is due
 *   2  a number is not in its shortest form: its last group, after the first byte, is zero
 *   3  the version is neither 1 nor 2
 *   4  the number of attributes is not 1 to 63, or the number of tables not 1 to 8
 *   5  a scheme is 0, or has an attribute that is not below their number
 *   6  a table has more than 255 rows in version 1, or more than 4,095 in version 2
 *   7  a row does not rise above the one before
 *   8  the cells so far, this table included, pass 8,192
 *   9  bytes follow the last table
 *   17 a number does not end: its ninth byte has the top bit set
 *   20 the version is 2, and no table has more than 255 rows; met after all else
 *   21 a row is all null in version 2; met after the row's last cell and before 7
 */
uint64_t harbour_check(const uint8_t *image, size_t length);

/*
 * The calls below work in memory that the caller lends, and keep nothing. Each
 * length counts elements; with length 0 a pointer is not followed and may be NULL.
 * No slice that a call writes may overlap another slice of that call.
 *
 * A catalogue is 34 words: the number of attributes, the number of tables, eight
 * schemes, eight row counts, eight places, eight masks. A table's place is where its
 * first cell lies among the cells, or would lie if it had rows. Bit u of table t's
 * mask is set when t and u touch: they are different tables, and their schemes share
 * an attribute. Entries of tables that are not there are ignored. harbour_load and
 * harbour_make_catalogue fill a catalogue; who sets its words otherwise has to set
 * places and masks too. A row count, place or mask above 65,535 counts as 65,535, and
 * is refused as it would be.
 *
 * A stream record is 3 words: records found, records handed out, next row; that of a
 * stream of one row is 5: the same, then the row's table and its number. A result is
 * 5 words: the key's first word, its second, trials, row tests, looks. Words behind
 * these stay. Where fewer are lent, the answer is 31 and nothing changes.
 *
 * The key of a set is two words of row numbers, 12 bits each and 0 for none: tables 0
 * to 4 in the first word (`low`) from its lowest bit on, tables 5 to 7 in the second
 * (`high`). Table t's row is low >> 12 * t & 4095, and high >> 12 * (t - 5) & 4095 from
 * table 5 on. Bits 60 to 63 of the first word and 36 to 63 of the second are 0; a key
 * with one of them set names a missing row. Where keys are put in order, the second
 * word counts first.
 *
 * The store is four arrays, low, high, left and right; it has as many records as the
 * shortest of them has elements, and at most 65,535. The caller keeps the store and
 * the stream record from open on, and changes neither between calls. A store that was
 * filled under keys of one word, a byte for each table, is none of these: its stream is
 * opened anew.
 *
 * Further refusals:
 *   6   in a catalogue: a table has more than 4,095 rows
 *   8   also: the cells so far pass the cells that are lent
 *   10  a code is 2^63 or more
 *   11  the lent bytes or the lent padded row are too short
 *   12  the store is full
 *   13  the stream record does not fit the tables and the store
 *   14  the store is damaged
 *   16  a place or a mask in the catalogue is not the one worked out
 *   19  there is no such table or row
 *   21  in the writer: a row is all null, where some table has more than 255 rows
 *
 * A catalogue that is lent is checked first, and before any cell is looked at: 4; then
 * table by table 5, 6 and 8; then 16.
 */

/*
 * Loads an image: its codes into the cells, its catalogue into the words. The
 * answer is as of harbour_check, with room for 8,192 cells or as many as are lent,
 * whichever is less. A good image gives a catalogue with its places and masks, and
 * zeros for tables that are not there. A refused image leaves the cells as they were
 * and gives a catalogue of zeros.
 *
 * The first word of `looked` tells how many bytes of the number at fault were
 * looked at, with refusal 1 (0 to 8), 2 (2 to 9) and 17 (9); with another refusal
 * and with a good image it is 0. Who does not ask lends no word: NULL and 0.
 */
uint64_t harbour_load(const uint8_t *image, size_t image_length,
                      uint64_t *cells, size_t cells_length,
                      uint64_t *catalogue, size_t catalogue_length,
                      uint64_t *looked, size_t looked_length);

/*
 * Makes the catalogue of tables made by hand. `given` is its first 18 words: the
 * number of attributes, the number of tables, eight schemes, eight row counts. The
 * answer is 0, and the catalogue is these words with places and masks behind them,
 * zeros for tables that are not there; or the first of the refusals 4 and, table by
 * table, 5, 6 and 8, with room for 8,192 cells, and the catalogue is of zeros.
 */
uint64_t harbour_make_catalogue(const uint64_t *given, size_t given_length,
                                uint64_t *catalogue, size_t catalogue_length);

/*
 * Writes the image of tables, in version 2 exactly when some table has more than 255
 * rows. The answer is its length * 32, or the refusal, and then no byte is written: the
 * catalogue's, then row by row through all tables 10, then 21 in version 2, then 7,
 * last 11.
 */
uint64_t harbour_write(const uint64_t *catalogue, size_t catalogue_length,
                       const uint64_t *cells, size_t cells_length,
                       uint8_t *out, size_t out_length);

/*
 * Opens a stream of the row sets of tables. The answer is row tests * 32 + refusal:
 * the catalogue's, then 12. Refused, it gives a record of zeros and leaves the store
 * as it was.
 */
uint64_t harbour_open(const uint64_t *catalogue, size_t catalogue_length,
                      const uint64_t *cells, size_t cells_length,
                      uint64_t *low, size_t low_length,
                      uint64_t *high, size_t high_length,
                      uint16_t *left, size_t left_length,
                      uint16_t *right, size_t right_length,
                      uint64_t *record, size_t record_length);

/*
 * Asks an open stream for its next set, in at most `budget` trials. The answer is
 *
 *   32   a set: the words of its key are in the result, its row in the first cells of padded
 *   64   finished: there are no more sets
 *   96   working: the budget is spent; call again
 *
 * or a refusal. The record is moved on. With another answer than 32 both words of the
 * key are 0 and padded stays.
 *
 * Before any trial it is refused with the catalogue's 4, 5, 6, 8 or 16, then 13, then
 * 11; only the result is then changed, to zeros. 12 and 14 are met at work: the trials
 * done before stand and are counted, and the one that failed leaves no mark.
 */
uint64_t harbour_next(const uint64_t *catalogue, size_t catalogue_length,
                      const uint64_t *cells, size_t cells_length,
                      uint64_t *low, size_t low_length,
                      uint64_t *high, size_t high_length,
                      uint16_t *left, size_t left_length,
                      uint16_t *right, size_t right_length,
                      uint64_t *record, size_t record_length,
                      uint64_t budget,
                      uint64_t *padded, size_t padded_length,
                      uint64_t *result, size_t result_length);

/*
 * Opens a stream of the row sets that hold one row: tables are numbered from 0, the
 * rows of a table from 1. The answer is row tests * 32 + refusal: the catalogue's 4, 5,
 * 6, 8 or 16, then 19, then 12. The record is 5 words. Refused, it gives a record of
 * zeros and leaves the store as it was.
 */
uint64_t harbour_open_holding(const uint64_t *catalogue, size_t catalogue_length,
                              const uint64_t *cells, size_t cells_length,
                              uint64_t *low, size_t low_length,
                              uint64_t *high, size_t high_length,
                              uint16_t *left, size_t left_length,
                              uint16_t *right, size_t right_length,
                              uint64_t table, uint64_t row,
                              uint64_t *record, size_t record_length);

/*
 * Asks such a stream for its next set, as harbour_next does: each set that holds the
 * row comes once, and no other. A trial that leads to a set without the row makes no
 * look. The record is moved on, and goes on naming its row.
 *
 * It is refused as harbour_next is; 13 is met too where the record names no such row.
 */
uint64_t harbour_next_holding(const uint64_t *catalogue, size_t catalogue_length,
                              const uint64_t *cells, size_t cells_length,
                              uint64_t *low, size_t low_length,
                              uint64_t *high, size_t high_length,
                              uint16_t *left, size_t left_length,
                              uint16_t *right, size_t right_length,
                              uint64_t *record, size_t record_length,
                              uint64_t budget,
                              uint64_t *padded, size_t padded_length,
                              uint64_t *result, size_t result_length);

/*
 * Tells whether the first padded row covers the second: 1 for yes, 0 for no. It
 * does when they have the same length and the first has, at each attribute where
 * the second has a value, that same value. A code of 0 is no value.
 */
uint64_t harbour_covers(const uint64_t *first, size_t first_length,
                        const uint64_t *second, size_t second_length);

/*
 * Checks a list of keys, as another program joined the same tables: whether it
 * holds every maximal row set once and nothing else, in any order. The first words of
 * the keys are one array, the second words another; the list is as long as the shorter.
 * Any words may be listed, and the list may have any length. The answer is
 *
 *   32   right
 *   64   the entry whose place, from 0, is in the result's first word is not a maximal
 *        set, or repeats an earlier one; it is the first such entry
 *   96   every entry is good, and the set whose key is in the result is missing: the
 *        first that trials of all rows on the listed sets reach, in the list's order
 *        (for an empty list, what the first row extends to)
 *
 * or one of the refusals 4, 5, 6, 8 and 16. The result is 2 words: a place and 0, or
 * the words of a key; with 32 and a refusal they are 0. No memory is asked for; the
 * call takes about 270 kB of stack.
 */
uint64_t harbour_check_list(const uint64_t *catalogue, size_t catalogue_length,
                            const uint64_t *cells, size_t cells_length,
                            const uint64_t *low, size_t low_length,
                            const uint64_t *high, size_t high_length,
                            uint64_t *result, size_t result_length);

#ifdef __cplusplus
}
#endif

#endif
