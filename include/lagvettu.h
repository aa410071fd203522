/*
 * Lagvettu: a two-pass 68000 script assembler, and a mover that relocates its lists.
 *
 * Each function is proved to answer, and to leave each place of each slice, as the rules say, whatever the bytes
 * and numbers that it is given. A slice is passed as a pointer and then its length, counted in elements. As for any C
 * function, the pointers are the caller's part: each is aligned, not null (at length 0 too) and good for its length,
 * what a call writes overlaps nothing else that it is lent, and nothing else writes there meanwhile.
 *
 * A list stands in the first count places of three slices: addresses, words and marks. Places past the count never change.
 * A mark says what its word is:
 *
 *     1, the label word: a label's address, taken modulo 65,536;
 *     2, the high word: the high word of a label's address of 32 bits, whose low word stands next;
 *     3, the low word: that low word;
 *     0, the other word: every other word.
 *
 * An answer is a number: LAGVETTU_ACCEPTED, with the count in *place, or else a refusal of enum lagvettu_refusal, with its
 * place in *place. A refused call changes no slice. *place is written by each call.
 *
 * The stations' call and the mover are in liblagvettu.a, those beside them in liblagvettu_tools.a, lagvettu_assemble_manual in liblagvettu_manual.a,
 * the two calls under a branch table in liblagvettu_branches.a, and the two of a sheet in liblagvettu_sheet.a: -llagvettu, -llagvettu_tools,
 * -llagvettu_manual, -llagvettu_branches, -llagvettu_sheet, any of them together.
 */
#ifndef LAGVETTU_H
#define LAGVETTU_H

#include <stddef.h>
#include <stdint.h>

#ifdef __cplusplus
extern "C" {
#endif

/* The answers, a refusal with the rules' words for its condition and its place. */
enum lagvettu_refusal {
    LAGVETTU_ACCEPTED = 0,

    /* From the input. */
    LAGVETTU_SOURCE_TOO_LONG = 1,   /* source over 32,768 bytes; place its length */
    LAGVETTU_BYTE_NOT_ASCII = 2,    /* a byte over 127 anywhere; place the first one's index, from 0 */
    LAGVETTU_TOO_MANY_LINES = 3,    /* over 4,096 lines; place the line count */
    LAGVETTU_BASE_TOO_HIGH = 4,     /* base 2^30 or more; place 0 */
    LAGVETTU_ADDRESS_TOO_HIGH = 5,  /* address 2^30 or more after a line; place the line, from 1 */
    LAGVETTU_TOO_MANY_LABELS = 6,   /* a new label when 256 are recorded; place the line */

    /* From the state lent. */
    LAGVETTU_SLICE_TOO_SHORT = 7,   /* any slice shorter than the count needed; place that count */
    LAGVETTU_DISTANCE_TOO_FAR = 8,  /* distance outside +-(2^30 - 1); place 0 */
    LAGVETTU_COUNT_TOO_HIGH = 9,    /* count over any slice's length; place the count */
    LAGVETTU_MARK_UNKNOWN = 10,     /* a mark over 3, a 2 not followed by a 3 or a 3 not preceded by a 2, in the first
                                       count places; place its index, from 0 */
    LAGVETTU_MOVED_OUTSIDE = 11,    /* a moved address, in those places, below 0 or above 2^30 + 1; place its index */

    /* From what is asked. */
    LAGVETTU_NO_LABEL_NEAR = 12,    /* no label at or below the address; place 0 */
    LAGVETTU_NO_SUCH_LINE = 13,     /* the line doesn't exist or is never read; place the line */

    /* From the manual's own words: both with the line as place, from 1, the first line that has one of them. */
    LAGVETTU_NO_ENCODING = 14,      /* an instruction with no encoding there */
    LAGVETTU_OUT_OF_REACH = 15,     /* one whose only fault is a displacement, of a recorded label or a signed number, out of range */

    /* From a branch table. */
    LAGVETTU_BAD_COMMAND = 16,      /* a cut, missing or unknown command, a 17th row or a condition over 15; place its offset */
    LAGVETTU_BAD_BRANCH_NAME = 17,  /* a name starting with a blank, with a lower-case letter, in an earlier row, or a mnemonic
                                       other than the eleven; place the row's offset */

    /* Of the tidy copy. */
    LAGVETTU_COPY_TOO_LONG = 18,    /* the lent slice is too short; place the length needed */

    /* From the bench. */
    LAGVETTU_MISPLACED = 19,        /* a list address that is odd or above 16,382; place the lowest such index */

    /* From the totals of a sheet. */
    LAGVETTU_TOO_MANY_SOURCES = 20, /* one source more than 1,000,000, or two sheets of more together; place 1,000,000 */
    LAGVETTU_TOTAL_TOO_HIGH = 21    /* a total handed in above 2^33; place 0 */
};

/* The totals of a sheet, in the order in which they are lent. */
enum lagvettu_total {
    LAGVETTU_SKIPPED_LINES = 0,     /* each line is in one of seven classes, by what follows its first colon: empty or a comment; */
    LAGVETTU_ORG_LINES = 1,
    LAGVETTU_LABEL_LINES = 2,       /* a label only; */
    LAGVETTU_DATA_LINES = 3,
    LAGVETTU_WORD_LINES = 4,        /* an instruction with a word; */
    LAGVETTU_WORDLESS_LINES = 5,    /* an instruction without; */
    LAGVETTU_END_LINES = 6,         /* END, and every line after it */
    LAGVETTU_WORDS = 7,             /* words of the lists */
    LAGVETTU_MARKED_WORDS = 8,      /* those with mark 1 */
    LAGVETTU_MOST_LABELS = 9,       /* the most labels in one source */
    LAGVETTU_ACCEPTED_SOURCES = 10,
    LAGVETTU_REFUSED_SOURCES = 11,
    LAGVETTU_TOTALS = 12
};

/* What the number of a line said. */
enum lagvettu_reading {
    LAGVETTU_READ = 0,
    LAGVETTU_NO_DIGITS = 1,     /* nothing after the prefix and an allowed sign, or no piece at all */
    LAGVETTU_BAD_DIGIT = 2,     /* a byte, however late, that is no digit of the radix; a sign that is not allowed too; a sum that is
                                   malformed or nests deeper than LAGVETTU_MAX_NESTING */
    LAGVETTU_OUT_OF_RANGE = 3,  /* the value does not fit into 32 bits; in a sum, a number or a step */
    LAGVETTU_NO_NUMBER = 4      /* the line reads no number: it is no ORG, and has no `DC.` */
};

/* Why a line has no word: of the reasons, the first that holds. */
enum lagvettu_verdict {
    LAGVETTU_WORD_EMITTED = 0,           /* it has one; a DC line with a value too */
    LAGVETTU_NOT_AN_INSTRUCTION = 1,     /* skipped, ORG, END, a label only, or data without a value */
    LAGVETTU_UNKNOWN_MNEMONIC = 2,
    LAGVETTU_WRONG_OPERAND_COUNT = 3,
    LAGVETTU_OPERAND_KINDS = 4,          /* kinds that no form of the mnemonic has */
    LAGVETTU_NUMBER_NO_DIGITS = 5,       /* a number, and what failed in it */
    LAGVETTU_NUMBER_BAD_DIGIT = 6,
    LAGVETTU_NUMBER_OUT_OF_RANGE = 7,
    LAGVETTU_LABEL_NOT_RECORDED = 8,
    LAGVETTU_DISPLACEMENT_OUT_OF_RANGE = 9,
    LAGVETTU_NO_VERDICT = 255            /* the call was refused */
};

/* Why a run ended. */
enum lagvettu_end {
    LAGVETTU_ON_HALT = 0,    /* $4E72 */
    LAGVETTU_ON_WORD = 1,    /* a word that is not run */
    LAGVETTU_ON_ACCESS = 2,  /* an odd or outside access; a fetch is one */
    LAGVETTU_ON_LIMIT = 3,   /* the limit was spent, and the next step would have been made */
    LAGVETTU_NO_END = 255    /* the call was refused */
};

/* The condition flags, as in the manual's condition code register. */
enum lagvettu_flag {
    LAGVETTU_X = 16,
    LAGVETTU_N = 8,
    LAGVETTU_Z = 4,
    LAGVETTU_V = 2,
    LAGVETTU_C = 1
};

/* The bytes of memory that a run has. */
#define LAGVETTU_MEMORY 16384

/* The longest source that is not refused, in bytes. */
#define LAGVETTU_MAX_SOURCE 32768

/* The most labels that a source has. */
#define LAGVETTU_MAX_LABELS 256

/* No sum has more parentheses open at once. */
#define LAGVETTU_MAX_NESTING 16

/* The most places that a list has: three slices of this length are never refused as too short. */
#define LAGVETTU_MAX_PLACES 8192

/* The same of a list by the manual's own words. */
#define LAGVETTU_MAX_MANUAL_PLACES 12288

/*
 * Assembles a source at a base, and puts the list into the first places of the three slices. A source is lines cut at
 * byte 10. Checks 1, 2, 3, 4, then line by line 6 before 5, then 7.
 */
uint8_t lagvettu_assemble(const uint8_t *source, size_t source_length,
                          uint32_t base,
                          uint32_t *addresses, size_t addresses_length,
                          uint16_t *words, size_t words_length,
                          uint8_t *marks, size_t marks_length,
                          size_t *place);

/*
 * Moves the list in the first count places: adds the distance to each address; a word with mark 1 becomes
 * (word + distance) modulo 65,536, and two words with marks 2 and 3 are moved as one number, modulo 2^32. Other words and
 * all marks stay. Checks 8, 9, then 10 over all count places, then 11 over all of them, each with its lowest index.
 *
 *     Words $0001 and $FFFF with marks 2 and 3, moved by 1: $0002 and $0000.
 */
uint8_t lagvettu_move(uint32_t *addresses, size_t addresses_length,
                      uint16_t *words, size_t words_length,
                      const uint8_t *marks, size_t marks_length,
                      size_t count,
                      int32_t distance,
                      size_t *place);

/*
 * Assembles a source at a base by the manual's own words (M68000PM/AD), for a real 68000: every instruction is the manual's, at the
 * size that its form has, with a long immediate, an absolute address of 32 bits or DBRA's displacement in the words after. A label's
 * address takes two places, with marks 2 and 3; mark 1 never comes. An instruction that has no encoding there is refused, and none is
 * left out in silence. Checks 1, 2, 3, 4, then line by line 6 before 5, then 14 and 15, the first line first, then 7.
 *
 *     "X: MOVE.L X,D2\nBRA X" at base $12340: words $2439, $0001, $2340, $60F8, marks 0, 2, 3, 0.
 *     "MOVE D0,D1": refused 14 at 1 (it has no suffix).   "BRA +128": refused 15 at 1.
 */
uint8_t lagvettu_assemble_manual(const uint8_t *source, size_t source_length,
                                 uint32_t base,
                                 uint32_t *addresses, size_t addresses_length,
                                 uint16_t *words, size_t words_length,
                                 uint8_t *marks, size_t marks_length,
                                 size_t *place);

/*
 * Which label is an address near? Names the label whose address is greatest without passing it, in a source at a base; of
 * labels with equal addresses, the one whose last record stands first in the source. *start and *length say where its name
 * stands in the source, in its last record; an empty name has length 0 and starts at its colon. *distance is how far past the
 * label the address is. Any address may be asked. Checks 1 to 6 as lagvettu_assemble, then 12. When it accepts, *place is 0;
 * when it refuses, *start, *length and *distance are 0.
 *
 *     "A:\nNOP\nB: NOP" at base $1000, address $1003: start 7, length 1, distance 1.
 */
uint8_t lagvettu_nearest(const uint8_t *source, size_t source_length,
                         uint32_t base,
                         uint32_t address,
                         size_t *start, size_t *length, uint32_t *distance,
                         size_t *place);

/*
 * Lists the labels of a source at a base in the first places of the four slices: where a label's name starts in the source and
 * how long it is, in its last record, its address, and the line, from 1, on which its address was last set. They come in the
 * order of these lines, and of one line the label before the first colon first. Checks 1 to 6 as lagvettu_assemble, then 7 over
 * the four slices; slices of LAGVETTU_MAX_LABELS are never too short.
 *
 *     "A: B DC.L 5\nC: A DS.B 1" at base 0: starts 3, 12, 15; lengths 1, 1, 1; addresses 0, 4, 4; lines 1, 2, 2: B, C, A.
 */
uint8_t lagvettu_symbols(const uint8_t *source, size_t source_length,
                         uint32_t base,
                         uint32_t *starts, size_t starts_length,
                         uint32_t *lengths, size_t lengths_length,
                         uint32_t *addresses, size_t addresses_length,
                         uint32_t *lines, size_t lines_length,
                         size_t *place);

/*
 * What did the number of a line say? For a line with ORG, and one of data with `DC.`: LAGVETTU_READ, with the value in *value, or
 * what failed, no digits before a bad digit and that before a value out of range. Every other line reads no number. A line is given
 * without its byte 10. Where nothing is read *value is 0. Nothing is refused.
 *
 *     "X: DC.L $10": LAGVETTU_READ, 16.   "ORG": LAGVETTU_NO_DIGITS.   "DC.W 3O0": LAGVETTU_BAD_DIGIT.
 *     "DC.B 4294967296": LAGVETTU_OUT_OF_RANGE.   "MOVEQ #3O,D1": LAGVETTU_NO_NUMBER.
 *
 * In the source of every call the value of DC may be a sum in square brackets, without blanks: numbers without a sign, `*` before `+`
 * and `-`, equal rank from the left, and parentheses.
 *
 *     "DC.L [2+3*4]": LAGVETTU_READ, 14.   "DC.L [(2+3)*4]": LAGVETTU_READ, 20.   "DC.L [1-2+3]": LAGVETTU_OUT_OF_RANGE.
 */
uint8_t lagvettu_line_number(const uint8_t *line, size_t line_length, uint32_t *value);

/*
 * Why has a line no word? *verdict is LAGVETTU_WORD_EMITTED, or the first of the reasons that holds of that line, counted from 1, in
 * a source assembled at a base. Checks 1 to 6 as lagvettu_assemble, then 13: there is no such line, or it follows END. When it
 * accepts, *place is 0; when it refuses, *verdict is LAGVETTU_NO_VERDICT.
 *
 *     "MOVE.L LIM,D2\nNOP" at base 0: line 1 LAGVETTU_LABEL_NOT_RECORDED, line 2 LAGVETTU_WORD_EMITTED, line 3 refused by 13.
 *     "MOVEQ #3O,D1": line 1 LAGVETTU_NUMBER_BAD_DIGIT.   "BRA D0": line 1 LAGVETTU_OPERAND_KINDS.
 */
uint8_t lagvettu_explain(const uint8_t *source, size_t source_length,
                         uint32_t base,
                         size_t line,
                         uint8_t *verdict,
                         size_t *place);

/*
 * lagvettu_assemble under a branch table, whose names stand in place of the eleven built-in ones. A table is rows and an end, byte 0: a
 * row is byte 1, a name of four bytes padded with spaces, and its condition, 0 to 15; there are at most 16, and bytes after the end are
 * not read. It is checked whole, 16 and 17, before all else: the first faulty command is the one blamed, with 16 before 17. A table
 * without rows is not the same as none: with it no branch emits. The bytes are lent for the call, and nothing of them is kept.
 *
 *     "\1BHS \4\1BLO \5" and the end: "A: BHS A\nBRA A\nBLO A" gives the words $64FE and $65FA, at 0 and 4: BRA has no word.
 *     "\1BHS \20": refused 16 at 0 (condition 16).   "\1bhs \4": refused 17 at 0.   "\1BHS \4" without an end: refused 16 at 6.
 */
uint8_t lagvettu_assemble_branches(const uint8_t *names, size_t names_length,
                                   const uint8_t *source, size_t source_length,
                                   uint32_t base,
                                   uint32_t *addresses, size_t addresses_length,
                                   uint16_t *words, size_t words_length,
                                   uint8_t *marks, size_t marks_length,
                                   size_t *place);

/*
 * lagvettu_explain under a branch table, checked as lagvettu_assemble_branches does.
 *
 *     "\1BHS \4\1BLO \5" and the end: "A: BHS A" line 1 LAGVETTU_WORD_EMITTED, "A: BRA A" line 1 LAGVETTU_UNKNOWN_MNEMONIC.
 */
uint8_t lagvettu_explain_branches(const uint8_t *names, size_t names_length,
                                  const uint8_t *source, size_t source_length,
                                  uint32_t base,
                                  size_t line,
                                  uint8_t *verdict,
                                  size_t *place);

/*
 * The tidy copy of a source, put into the first bytes of out; its length is in *place. Each line that is read is copied, the END line
 * too, without skipped lines, parted by one byte 10 and none at the end. Outer blanks go and blank runs become one space. Before the
 * first colon of a line that is no END and no ORG blanks inside the name are kept, and those around that colon go; so it is with the
 * second colon where what follows the first is data. At every base where the source is accepted its copy gives the same list. A copy is
 * never longer than its source: out with room for the source is never too short. Checks 1 to 3 as lagvettu_assemble, then 18. Bytes of
 * out after the copy stay.
 *
 *     " x  y\t: NOP ; a\n\n; b\n": "x  y:NOP ; a", length 12.   "x : y  z : DC.L   5": "x:y  z:DC.L 5", length 13.
 */
uint8_t lagvettu_tidy(const uint8_t *source, size_t source_length,
                      uint8_t *out, size_t out_length,
                      size_t *place);

/*
 * Tries a list on the bench. The memory is cleared and filled with the first count words, each at its address, high byte first, later
 * ones over earlier; D0 to D7 and the flags start at 0, A0 to A7 and the program counter are given. It runs MOVEQ; MOVE.L (An),Dm
 * and Dn,(Am); MOVE.W Dn,Dm; MULS.W; ADD.W, SUB.W and CMP.W of data registers; TST.L, SUBQ.L and ASL.L of one; NOP; and BRA, BCC, BCS,
 * BNE, BEQ, BGE, BLT, BGT and BLE by a byte that is neither 0 nor -1, each step as the manual says. It stops on $4E72, on any other
 * word, on an odd or outside access, or when limit steps are made, which comes last; the step that stops changes nothing and is
 * not counted. *end says why, *steps how many steps were made, d, memory, *pc and *flags are as they are then. Checks 9, of both
 * slices, then 19. When it accepts, *place is 0; when it refuses, d and memory stay as they were, *end is LAGVETTU_NO_END, and
 * *steps, *pc and *flags are 0.
 *
 *     Words $7003, $5380, $66FC, $4E72 at 0 to 6, from 0, limit 100: LAGVETTU_ON_HALT, 7 steps, pc 6, flags LAGVETTU_Z, d[0] 0.
 */
uint8_t lagvettu_run(const uint32_t *addresses, size_t addresses_length,
                     const uint16_t *words, size_t words_length,
                     size_t count,
                     const uint32_t a[8],
                     uint32_t start,
                     uint64_t limit,
                     uint32_t d[8],
                     uint8_t memory[LAGVETTU_MEMORY],
                     uint8_t *end, uint64_t *steps, uint32_t *pc, uint8_t *flags,
                     size_t *place);

/*
 * Adds a source, at base 0, to the twelve totals of a series, which start at 0: its lines, words and labels, or, if it is refused by 1
 * to 6, one to the refused sources and nothing else. The mean of words per script is totals[LAGVETTU_WORDS] over
 * totals[LAGVETTU_ACCEPTED_SOURCES], two whole numbers. Checks 20, then 21 over all twelve; no total changes by either. A series of at
 * most 1,000,000 sources never meets 21. The totals of a series' parts, added up, are those of the series, in whatever order (of the
 * most labels the larger), so several machines can share its sources. When it accepts, *place is 0.
 *
 *     "X: MOVE X,D0\nEND\nNOP" to no totals: an instruction with a word, two lines from END on, 2 words, 1 marked, 1 label.
 */
uint8_t lagvettu_sheet_add(const uint8_t *source, size_t source_length,
                           uint64_t totals[LAGVETTU_TOTALS],
                           size_t *place);

/*
 * Adds the totals of another sheet, of which each total is added up, but of the most labels the larger is taken: the totals of both
 * series together. Checks 20, if they are of more than 1,000,000 sources together, then 21 over the twelve of either; no total changes
 * by a refusal. When it accepts, *place is 0.
 *
 *     A sheet of "X: MOVE X,D0\nEND\nNOP" and one of "A:\nB: NOP" are that of both: a label only, two instructions with a word, two lines
 *     from END on, 3 words, 1 marked, at most 2 labels in one source, 2 sources accepted.
 *     Of 1,000,000 sources and of one: refused 20 at 1,000,000.
 */
uint8_t lagvettu_sheet_join(const uint64_t other[LAGVETTU_TOTALS],
                            uint64_t totals[LAGVETTU_TOTALS],
                            size_t *place);

#ifdef __cplusplus
}
#endif

#endif
