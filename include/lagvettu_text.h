/*
 * Lagvettu's texts: what its programs print, byte for byte, and a list or a sheet read back from its text. They are in
 * liblagvettu_text.a: -llagvettu_text, beside the other archives or alone.
 *
 * Each function is proved to answer, and to leave each byte of what it is lent, as the definitions say, whatever the bytes and numbers
 * that it is given; none refuses for want of room. An array is passed as a pointer alone, and has exactly as many elements as its
 * declaration names; a slice is passed as a pointer and then its length. The pointers are the caller's part, as lagvettu.h says.
 *
 * A text is put at the front of out, and its length into *size; the bytes after it stay as they were. It has no byte 0 at its end. A
 * refusal's text is the one line `refused`, number and place, as the programs print it; lagvettu.h says what the numbers mean.
 *
 * Where a branch table may be lent, lent says whether it is. Where it is not, names is not read: any pointer that is not null, with the
 * length 0, will do. A table is as lagvettu_explain_branches of lagvettu.h takes it; 16 and 17 come before all else.
 */
#ifndef LAGVETTU_TEXT_H
#define LAGVETTU_TEXT_H

#include <stdbool.h>
#include <stddef.h>
#include <stdint.h>

#ifdef __cplusplus
extern "C" {
#endif

/* The places of the longest list there is, by the manual's own words. */
#define LAGVETTU_TEXT_PLACES 12288

/* The bytes of its text; no text but a printout is longer. */
#define LAGVETTU_TEXT_SIZE 196608

/* Room for every printout. */
#define LAGVETTU_PRINTOUT_SIZE 401410

/* Room for every sheet. */
#define LAGVETTU_SHEET_SIZE 512

/*
 * The list in the first count places: a line for each word, address in 8 upper-case hexadecimal digits, word in 4, and mark. Places past
 * the count are not read, and a count over the places is taken as all of them. An empty list has an empty text.
 *
 *     Address $1000, word $7203, mark 0, count 1: "00001000 7203 0\n".
 */
void lagvettu_text_list(const uint32_t addresses[LAGVETTU_TEXT_PLACES],
                        const uint16_t words[LAGVETTU_TEXT_PLACES],
                        const uint8_t marks[LAGVETTU_TEXT_PLACES],
                        size_t count,
                        uint8_t out[LAGVETTU_TEXT_SIZE], size_t *size);

/*
 * Reads such a text back: 0, with the list in the first places and their number in *count; or 1, with the number, from 1, of the first
 * line that is not one of a list's or for which there is no place, in *count, and nothing else written.
 *
 *     "00001000 7203 0\n": 0, count 1.   "00001000 7203 0\nX": 1, count 2.
 */
uint8_t lagvettu_read_list(const uint8_t *text, size_t text_length,
                           uint32_t addresses[LAGVETTU_TEXT_PLACES],
                           uint16_t words[LAGVETTU_TEXT_PLACES],
                           uint8_t marks[LAGVETTU_TEXT_PLACES],
                           size_t *count);

/*
 * The labels of a source at a base, a line for each: name, address in 8 upper-case hexadecimal digits, line.
 *
 *     "A: NOP" at base $10: "A 00000010 1\n".
 */
void lagvettu_text_symbols(const uint8_t *source, size_t source_length,
                           uint32_t base,
                           uint8_t out[LAGVETTU_TEXT_SIZE], size_t *size);

/*
 * The label that an address is near, in a source at a base, and in decimal how far past it the address is.
 *
 *     "A:\nNOP\nB: NOP" at base $1000, address $1003: "B 1\n"; address $FFF: "refused 12 0\n".
 */
void lagvettu_text_nearest(const uint8_t *source, size_t source_length,
                           uint32_t base,
                           uint32_t address,
                           uint8_t out[LAGVETTU_TEXT_SIZE], size_t *size);

/*
 * Why a line, from 1, of a source at a base has no word: `word emitted`, or the first reason that holds.
 *
 *     "MOVE.L LIM,D2\nNOP" at base 0: line 1 "label not recorded\n", line 2 "word emitted\n", line 3 "refused 13 3\n".
 *     "A: BHS A" line 1 under "\1BHS \4" and the end: "word emitted\n".
 */
void lagvettu_text_why(bool lent, const uint8_t *names, size_t names_length,
                       const uint8_t *source, size_t source_length,
                       uint32_t base,
                       size_t line,
                       uint8_t out[LAGVETTU_TEXT_SIZE], size_t *size);

/*
 * The same of every line that is read, each with its number in front.
 *
 *     "MOVE.L LIM,D2\nNOP" at base 0: "1 label not recorded\n2 word emitted\n".
 */
void lagvettu_text_why_all(bool lent, const uint8_t *names, size_t names_length,
                           const uint8_t *source, size_t source_length,
                           uint32_t base,
                           uint8_t out[LAGVETTU_TEXT_SIZE], size_t *size);

/*
 * The printout of a source at a base, an assembly listing for people. It has a row for each line of the source: the line's number in 4
 * columns, the address at which it is read in 8 upper-case hexadecimal digits, two columns for its words, each with `*` after it
 * if it has a mark, and the line itself; after a line without a word `<-` and why. A line after END has `not read` in the place of an
 * address. Under the rows are an empty line and the labels, if there are any.
 *
 *     "A: BRA A\nORG $X\nEND\nNOP" at base 0:
 *        1  00000000  60FE       A: BRA A
 *        2  00000002             ORG $X  <- number: bad digit
 *        3  00000002             END  <- not an instruction
 *        4  not read             NOP
 *
 *     A 00000000 1
 */
void lagvettu_text_printout(bool lent, const uint8_t *names, size_t names_length,
                            const uint8_t *source, size_t source_length,
                            uint32_t base,
                            uint8_t out[LAGVETTU_PRINTOUT_SIZE], size_t *size);

/*
 * The line of a run on the bench, as lagvettu_run of lagvettu.h makes it of the first count words: why it ended (`halt`, `word`, `access`,
 * `limit`), the steps in decimal, the program counter and D0 to D7 in 8 upper-case hexadecimal digits each, and the flags X N Z V C as
 * digits 0 or 1. Refused by 9, a count over the places, then 19.
 *
 *     Words $7003, $5380, $66FC, $4E72 at 0 to 6, from 0, limit 100:
 *     "halt 7 00000006 00000000 00000000 00000000 00000000 00000000 00000000 00000000 00000000 00100\n".
 */
void lagvettu_text_run(const uint32_t addresses[LAGVETTU_TEXT_PLACES],
                       const uint16_t words[LAGVETTU_TEXT_PLACES],
                       size_t count,
                       const uint32_t a[8],
                       uint32_t start,
                       uint64_t limit,
                       uint8_t out[LAGVETTU_TEXT_SIZE], size_t *size);

/*
 * The same with a value put into each of the first count words that stand at the address threshold, and in front of the line, in decimal.
 * The words keep the value; a list that is refused keeps its words, and its line has no value.
 *
 *     The same words, with $7001 at 0:
 *     "28673 halt 3 00000006 00000000 00000000 00000000 00000000 00000000 00000000 00000000 00000000 00100\n".
 */
void lagvettu_text_try(const uint32_t addresses[LAGVETTU_TEXT_PLACES],
                       uint16_t words[LAGVETTU_TEXT_PLACES],
                       size_t count,
                       uint32_t threshold,
                       uint16_t value,
                       const uint32_t a[8],
                       uint32_t start,
                       uint64_t limit,
                       uint8_t out[LAGVETTU_TEXT_SIZE], size_t *size);

/*
 * The sheet of twelve totals, which stand as enum lagvettu_total of lagvettu.h says: a line for each, its name and the total in decimal,
 * and last `mean` with the words and the accepted sources.
 *
 *     Of 3 sources with 12 words in all and one that was refused: "..accepted 3\nrefused 1\nmean 12 3\n".
 */
void lagvettu_text_sheet(const uint64_t totals[12],
                         uint8_t out[LAGVETTU_SHEET_SIZE], size_t *size);

/*
 * Reads such a text back: 0, with the totals and 0 in *line; or 1, with the number, from 1, of the first wrong line in *line, and the
 * totals as they were. It is read if it is, byte for byte, what its totals are written as, each of at most 19 digits; a text is judged by
 * its first 32,768 bytes.
 *
 *     "skipped 0\norg 01\n": 1, line 2.
 */
uint8_t lagvettu_read_sheet(const uint8_t *text, size_t text_length,
                            uint64_t totals[12],
                            size_t *line);

#ifdef __cplusplus
}
#endif

#endif
