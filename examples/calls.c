/*
 * Makes the calls that include/lagvettu.h has as examples, and says which does not answer as it stands there; status 1 then.
 */
#include <stdio.h>
#include <string.h>

#include "lagvettu.h"

static int wrong;

/* Says that a call's example is not as it should be. */
static void expect(int holds, const char *what)
{
    if (!holds) {
        printf("calls: NOT AS THE HEADER SAYS: %s\n", what);
        wrong = 1;
    }
}

static const uint8_t *bytes(const char *text)
{
    return (const uint8_t *)text;
}

static void nearest(void)
{
    const char *script = "A:\nNOP\nB: NOP";
    size_t start, length, place;
    uint32_t distance;
    uint8_t number = lagvettu_nearest(bytes(script), strlen(script), 0x1000, 0x1003, &start, &length, &distance, &place);
    expect(number == LAGVETTU_ACCEPTED && start == 7 && length == 1 && distance == 1 && place == 0, "lagvettu_nearest");
    number = lagvettu_nearest(bytes(script), strlen(script), 0x1000, 0xFFF, &start, &length, &distance, &place);
    expect(number == LAGVETTU_NO_LABEL_NEAR && start == 0 && length == 0 && distance == 0 && place == 0, "lagvettu_nearest, refused");
}

static void symbols(void)
{
    const char *script = "A: B DC.L 5\nC: A DS.B 1";
    const uint32_t wanted[4][3] = {{3, 12, 15}, {1, 1, 1}, {0, 4, 4}, {1, 2, 2}};
    uint32_t rows[4][3] = {{0}};
    size_t count;
    uint8_t number = lagvettu_symbols(bytes(script), strlen(script), 0, rows[0], 2, rows[1], 3, rows[2], 3, rows[3], 3, &count);
    expect(number == LAGVETTU_SLICE_TOO_SHORT && count == 3 && rows[1][0] == 0, "lagvettu_symbols, refused");
    number = lagvettu_symbols(bytes(script), strlen(script), 0, rows[0], 3, rows[1], 3, rows[2], 3, rows[3], 3, &count);
    expect(number == LAGVETTU_ACCEPTED && count == 3 && memcmp(rows, wanted, sizeof rows) == 0, "lagvettu_symbols");
}

static void line_number(void)
{
    static const struct { const char *line; uint8_t reading; uint32_t value; } examples[] = {
        {"X: DC.L $10", LAGVETTU_READ, 16},
        {"ORG", LAGVETTU_NO_DIGITS, 0},
        {"DC.W 3O0", LAGVETTU_BAD_DIGIT, 0},
        {"DC.B 4294967296", LAGVETTU_OUT_OF_RANGE, 0},
        {"MOVEQ #3O,D1", LAGVETTU_NO_NUMBER, 0},
        {"DC.L [2+3*4]", LAGVETTU_READ, 14},
        {"DC.L [(2+3)*4]", LAGVETTU_READ, 20},
        {"DC.L [1-2+3]", LAGVETTU_OUT_OF_RANGE, 0},
    };
    for (size_t i = 0; i < sizeof examples / sizeof *examples; i++) {
        uint32_t value = 1;
        uint8_t reading = lagvettu_line_number(bytes(examples[i].line), strlen(examples[i].line), &value);
        expect(reading == examples[i].reading && value == examples[i].value, examples[i].line);
    }
}

static void explain(void)
{
    static const struct { const char *script; size_t line; uint8_t number, verdict; size_t place; } examples[] = {
        {"MOVE.L LIM,D2\nNOP", 1, LAGVETTU_ACCEPTED, LAGVETTU_LABEL_NOT_RECORDED, 0},
        {"MOVE.L LIM,D2\nNOP", 2, LAGVETTU_ACCEPTED, LAGVETTU_WORD_EMITTED, 0},
        {"MOVE.L LIM,D2\nNOP", 3, LAGVETTU_NO_SUCH_LINE, LAGVETTU_NO_VERDICT, 3},
        {"MOVEQ #3O,D1", 1, LAGVETTU_ACCEPTED, LAGVETTU_NUMBER_BAD_DIGIT, 0},
        {"BRA D0", 1, LAGVETTU_ACCEPTED, LAGVETTU_OPERAND_KINDS, 0},
    };
    for (size_t i = 0; i < sizeof examples / sizeof *examples; i++) {
        uint8_t verdict;
        size_t place;
        const char *script = examples[i].script;
        uint8_t number = lagvettu_explain(bytes(script), strlen(script), 0, examples[i].line, &verdict, &place);
        expect(number == examples[i].number && verdict == examples[i].verdict && place == examples[i].place, script);
    }
}

static void assemble_manual(void)
{
    const char *script = "X: MOVE.L X,D2\nBRA X";
    const uint16_t wanted_words[4] = {0x2439, 0x0001, 0x2340, 0x60F8};
    const uint8_t wanted_marks[4] = {0, 2, 3, 0};
    uint32_t addresses[4] = {0};
    uint16_t words[4] = {0};
    uint8_t marks[4] = {0};
    size_t place;
    uint8_t number = lagvettu_assemble_manual(bytes(script), strlen(script), 0x12340, addresses, 4, words, 4, marks, 4, &place);
    expect(number == LAGVETTU_ACCEPTED && place == 4 && addresses[3] == 0x12346 && memcmp(words, wanted_words, sizeof words) == 0
               && memcmp(marks, wanted_marks, sizeof marks) == 0, "lagvettu_assemble_manual");
    number = lagvettu_assemble_manual(bytes("MOVE D0,D1"), 10, 0, addresses, 4, words, 4, marks, 4, &place);
    expect(number == LAGVETTU_NO_ENCODING && place == 1 && words[0] == 0x2439, "lagvettu_assemble_manual, no encoding");
    number = lagvettu_assemble_manual(bytes("BRA +128"), 8, 0, addresses, 4, words, 4, marks, 4, &place);
    expect(number == LAGVETTU_OUT_OF_REACH && place == 1 && words[0] == 0x2439, "lagvettu_assemble_manual, out of reach");
}

static void assemble_branches(void)
{
    static const uint8_t table[] = "\1BHS \4\1BLO \5"; /* with the end */
    const char *script = "A: BHS A\nBRA A\nBLO A";
    uint32_t addresses[2] = {0};
    uint16_t words[2] = {0};
    uint8_t marks[2] = {1, 1};
    size_t place;
    uint8_t number = lagvettu_assemble_branches(table, sizeof table, bytes(script), strlen(script), 0, addresses, 2, words, 2, marks, 2, &place);
    expect(number == LAGVETTU_ACCEPTED && place == 2 && addresses[1] == 4 && words[0] == 0x64FE && words[1] == 0x65FA && marks[0] == 0,
           "lagvettu_assemble_branches");
    number = lagvettu_assemble_branches(bytes("\1BHS \20"), 7, bytes(script), strlen(script), 0, addresses, 2, words, 2, marks, 2, &place);
    expect(number == LAGVETTU_BAD_COMMAND && place == 0 && words[0] == 0x64FE, "lagvettu_assemble_branches, condition 16");
    number = lagvettu_assemble_branches(bytes("\1bhs \4"), 7, bytes(script), strlen(script), 0, addresses, 2, words, 2, marks, 2, &place);
    expect(number == LAGVETTU_BAD_BRANCH_NAME && place == 0 && words[0] == 0x64FE, "lagvettu_assemble_branches, lower case");
    number = lagvettu_assemble_branches(bytes("\1BHS \4"), 6, bytes(script), strlen(script), 0, addresses, 2, words, 2, marks, 2, &place);
    expect(number == LAGVETTU_BAD_COMMAND && place == 6 && words[0] == 0x64FE, "lagvettu_assemble_branches, no end");
}

static void explain_branches(void)
{
    static const uint8_t table[] = "\1BHS \4\1BLO \5"; /* with the end */
    uint8_t verdict;
    size_t place;
    uint8_t number = lagvettu_explain_branches(table, sizeof table, bytes("A: BHS A"), 8, 0, 1, &verdict, &place);
    expect(number == LAGVETTU_ACCEPTED && verdict == LAGVETTU_WORD_EMITTED && place == 0, "lagvettu_explain_branches");
    number = lagvettu_explain_branches(table, sizeof table, bytes("A: BRA A"), 8, 0, 1, &verdict, &place);
    expect(number == LAGVETTU_ACCEPTED && verdict == LAGVETTU_UNKNOWN_MNEMONIC && place == 0, "lagvettu_explain_branches, not in the table");
}

static void move_pair(void)
{
    uint32_t addresses[2] = {2, 4};
    uint16_t words[2] = {0x0001, 0xFFFF};
    const uint8_t marks[2] = {2, 3};
    size_t place;
    uint8_t number = lagvettu_move(addresses, 2, words, 2, marks, 2, 2, 1, &place);
    expect(number == LAGVETTU_ACCEPTED && place == 2 && words[0] == 0x0002 && words[1] == 0x0000, "lagvettu_move of a pair");
}

static void tidy(void)
{
    static const struct { const char *script, *copy; } examples[] = {
        {" x  y\t: NOP ; a\n\n; b\n", "x  y:NOP ; a"},
        {"x : y  z : DC.L   5", "x:y  z:DC.L 5"},
    };
    for (size_t i = 0; i < sizeof examples / sizeof *examples; i++) {
        const char *script = examples[i].script, *copy = examples[i].copy;
        uint8_t out[32];
        size_t length;
        memset(out, 0xAA, sizeof out);
        uint8_t number = lagvettu_tidy(bytes(script), strlen(script), out, strlen(copy) - 1, &length);
        expect(number == LAGVETTU_COPY_TOO_LONG && length == strlen(copy) && out[0] == 0xAA, "lagvettu_tidy, refused");
        number = lagvettu_tidy(bytes(script), strlen(script), out, sizeof out, &length);
        expect(number == LAGVETTU_ACCEPTED && length == strlen(copy) && memcmp(out, copy, length) == 0 && out[length] == 0xAA, script);
    }
}

static void run(void)
{
    static const uint16_t words[4] = {0x7003, 0x5380, 0x66FC, 0x4E72};
    uint32_t addresses[4] = {0, 2, 4, 6};
    const uint32_t a[8] = {0};
    uint32_t d[8] = {1, 1}, pc;
    uint8_t memory[LAGVETTU_MEMORY] = {1}, end, flags;
    uint64_t steps;
    size_t place;
    uint8_t number = lagvettu_run(addresses, 4, words, 4, 4, a, 0, 100, d, memory, &end, &steps, &pc, &flags, &place);
    expect(number == LAGVETTU_ACCEPTED && end == LAGVETTU_ON_HALT && steps == 7 && pc == 6 && flags == LAGVETTU_Z && d[0] == 0 && d[1] == 0
           && memory[0] == 0x70 && memory[8] == 0 && place == 0, "lagvettu_run");
    addresses[2] = 16384;
    number = lagvettu_run(addresses, 4, words, 4, 4, a, 0, 100, d, memory, &end, &steps, &pc, &flags, &place);
    expect(number == LAGVETTU_MISPLACED && end == LAGVETTU_NO_END && steps == 0 && pc == 0 && flags == 0 && memory[4] == 0x66 && place == 2,
           "lagvettu_run, refused");
}

static void sheet_add(void)
{
    const char *script = "X: MOVE X,D0\nEND\nNOP";
    const uint64_t wanted[LAGVETTU_TOTALS] = {0, 0, 0, 0, 1, 0, 2, 2, 1, 1, 1, 0};
    const uint64_t refused[LAGVETTU_TOTALS] = {0, 0, 0, 0, 1, 0, 2, 2, 1, 1, 1, 1};
    uint64_t totals[LAGVETTU_TOTALS] = {0};
    size_t place = 1;
    uint8_t number = lagvettu_sheet_add(bytes(script), strlen(script), totals, &place);
    expect(number == LAGVETTU_ACCEPTED && place == 0 && memcmp(totals, wanted, sizeof totals) == 0, "lagvettu_sheet_add");
    number = lagvettu_sheet_add(bytes("\x80"), 1, totals, &place);
    expect(number == LAGVETTU_ACCEPTED && place == 0 && memcmp(totals, refused, sizeof totals) == 0, "lagvettu_sheet_add, a source refused");
    uint64_t full[LAGVETTU_TOTALS] = {[LAGVETTU_ACCEPTED_SOURCES] = 999999, [LAGVETTU_REFUSED_SOURCES] = 1};
    number = lagvettu_sheet_add(bytes("NOP"), 3, full, &place);
    expect(number == LAGVETTU_TOO_MANY_SOURCES && place == 1000000 && full[LAGVETTU_WORDS] == 0 && full[LAGVETTU_ACCEPTED_SOURCES] == 999999,
           "lagvettu_sheet_add, too many sources");
    uint64_t high[LAGVETTU_TOTALS] = {[LAGVETTU_MOST_LABELS] = 8589934593};
    number = lagvettu_sheet_add(bytes("NOP"), 3, high, &place);
    expect(number == LAGVETTU_TOTAL_TOO_HIGH && place == 0 && high[LAGVETTU_WORDS] == 0, "lagvettu_sheet_add, a total too high");
}

static void sheet_join(void)
{
    const char *scripts[2] = {"X: MOVE X,D0\nEND\nNOP", "A:\nB: NOP"};
    const uint64_t wanted[LAGVETTU_TOTALS] = {0, 0, 1, 0, 2, 0, 2, 3, 1, 2, 2, 0};
    uint64_t sheets[2][LAGVETTU_TOTALS] = {{0}}, both[LAGVETTU_TOTALS] = {0};
    size_t place = 1;
    uint8_t number;
    for (int i = 0; i < 2; i++) {
        lagvettu_sheet_add(bytes(scripts[i]), strlen(scripts[i]), sheets[i], &place);
        lagvettu_sheet_add(bytes(scripts[i]), strlen(scripts[i]), both, &place);
    }
    place = 1;
    number = lagvettu_sheet_join(sheets[0], sheets[1], &place);
    expect(number == LAGVETTU_ACCEPTED && place == 0 && memcmp(sheets[1], wanted, sizeof wanted) == 0 && memcmp(both, wanted, sizeof wanted) == 0,
           "lagvettu_sheet_join");
    const uint64_t full[LAGVETTU_TOTALS] = {[LAGVETTU_ACCEPTED_SOURCES] = 999999, [LAGVETTU_REFUSED_SOURCES] = 1};
    number = lagvettu_sheet_join(full, sheets[0], &place);
    expect(number == LAGVETTU_TOO_MANY_SOURCES && place == 1000000 && sheets[0][LAGVETTU_WORDS] == 2 && sheets[0][LAGVETTU_ACCEPTED_SOURCES] == 1,
           "lagvettu_sheet_join, too many sources");
    const uint64_t high[LAGVETTU_TOTALS] = {[LAGVETTU_MOST_LABELS] = 8589934593};
    number = lagvettu_sheet_join(high, sheets[0], &place);
    expect(number == LAGVETTU_TOTAL_TOO_HIGH && place == 0 && sheets[0][LAGVETTU_MOST_LABELS] == 1, "lagvettu_sheet_join, a total too high");
}

int main(void)
{
    nearest();
    symbols();
    line_number();
    explain();
    assemble_manual();
    assemble_branches();
    explain_branches();
    move_pair();
    tidy();
    run();
    sheet_add();
    sheet_join();
    return wrong;
}
