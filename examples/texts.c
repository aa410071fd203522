/*
 * Makes the calls that include/lagvettu_text.h has as examples, and says which does not answer as it stands there; status 1 then.
 */
#include <stdio.h>
#include <string.h>

#include "lagvettu_text.h"

static int wrong;
static uint8_t out[LAGVETTU_PRINTOUT_SIZE];
static size_t size;

/* Says that a call's example is not as it should be. */
static void expect(int holds, const char *what)
{
    if (!holds) {
        printf("texts: NOT AS THE HEADER SAYS: %s\n", what);
        wrong = 1;
    }
}

/* The same of the text that was printed last; the byte after it is still as `clear` left it. */
static void expect_text(const char *text, const char *what)
{
    expect(size == strlen(text) && memcmp(out, text, size) == 0 && out[size] == '?', what);
}

static void clear(void)
{
    memset(out, '?', sizeof out);
    size = 0;
}

static const uint8_t *bytes(const char *text)
{
    return (const uint8_t *)text;
}

static void lists(void)
{
    static uint32_t addresses[LAGVETTU_TEXT_PLACES] = {0x1000, 7};
    static uint16_t words[LAGVETTU_TEXT_PLACES] = {0x7203, 7};
    static uint8_t marks[LAGVETTU_TEXT_PLACES] = {0, 7};
    const char *text = "00001000 7203 0\n";
    size_t count;
    clear();
    lagvettu_text_list(addresses, words, marks, 1, out, &size);
    expect_text(text, "lagvettu_text_list");
    clear();
    lagvettu_text_list(addresses, words, marks, 0, out, &size);
    expect_text("", "lagvettu_text_list, an empty list");
    addresses[0] = words[0] = marks[0] = 9;
    expect(lagvettu_read_list(bytes("00001000 7203 0\nX"), 17, addresses, words, marks, &count) == 1 && count == 2 && addresses[0] == 9,
           "lagvettu_read_list, a wrong line");
    expect(lagvettu_read_list(bytes(text), strlen(text), addresses, words, marks, &count) == 0 && count == 1 && addresses[0] == 0x1000
               && words[0] == 0x7203 && marks[0] == 0 && addresses[1] == 7,
           "lagvettu_read_list");
}

static void labels(void)
{
    const char *script = "A:\nNOP\nB: NOP";
    clear();
    lagvettu_text_symbols(bytes("A: NOP"), 6, 0x10, out, &size);
    expect_text("A 00000010 1\n", "lagvettu_text_symbols");
    clear();
    lagvettu_text_nearest(bytes(script), strlen(script), 0x1000, 0x1003, out, &size);
    expect_text("B 1\n", "lagvettu_text_nearest");
    clear();
    lagvettu_text_nearest(bytes(script), strlen(script), 0x1000, 0xFFF, out, &size);
    expect_text("refused 12 0\n", "lagvettu_text_nearest, refused");
}

static void reasons(void)
{
    static const uint8_t table[] = {1, 'B', 'H', 'S', ' ', 4, 0};
    static const char *const verdicts[] = {"label not recorded\n", "word emitted\n", "refused 13 3\n"};
    const char *script = "MOVE.L LIM,D2\nNOP";
    for (size_t line = 1; line <= 3; line++) {
        clear();
        lagvettu_text_why(false, table, 0, bytes(script), strlen(script), 0, line, out, &size);
        expect_text(verdicts[line - 1], "lagvettu_text_why");
    }
    clear();
    lagvettu_text_why(true, table, sizeof table, bytes("A: BHS A"), 8, 0, 1, out, &size);
    expect_text("word emitted\n", "lagvettu_text_why under a table");
    clear();
    lagvettu_text_why_all(false, table, 0, bytes(script), strlen(script), 0, out, &size);
    expect_text("1 label not recorded\n2 word emitted\n", "lagvettu_text_why_all");
    clear();
    lagvettu_text_why_all(true, table, 6, bytes(script), strlen(script), 0, out, &size);
    expect_text("refused 16 6\n", "lagvettu_text_why_all under a table without its end");
}

static void printout(void)
{
    static const uint8_t table[] = {0};
    const char *script = "A: BRA A\nORG $X\nEND\nNOP";
    clear();
    lagvettu_text_printout(false, table, 0, bytes(script), strlen(script), 0, out, &size);
    expect_text("   1  00000000  60FE       A: BRA A\n"
                "   2  00000002             ORG $X  <- number: bad digit\n"
                "   3  00000002             END  <- not an instruction\n"
                "   4  not read             NOP\n"
                "\n"
                "A 00000000 1\n",
                "lagvettu_text_printout");
    clear();
    lagvettu_text_printout(true, table, sizeof table, bytes("BRA +2"), 6, 0, out, &size);
    expect_text("   1  00000000             BRA +2  <- unknown mnemonic\n", "lagvettu_text_printout under a table without rows");
}

static void runs(void)
{
    static uint32_t addresses[LAGVETTU_TEXT_PLACES] = {0, 2, 4, 6};
    static uint16_t words[LAGVETTU_TEXT_PLACES] = {0x7003, 0x5380, 0x66FC, 0x4E72, 5};
    const uint32_t a[8] = {0};
    clear();
    lagvettu_text_run(addresses, words, 4, a, 0, 100, out, &size);
    expect_text("halt 7 00000006 00000000 00000000 00000000 00000000 00000000 00000000 00000000 00000000 00100\n", "lagvettu_text_run");
    clear();
    lagvettu_text_run(addresses, words, LAGVETTU_TEXT_PLACES + 1, a, 0, 100, out, &size);
    expect_text("refused 9 12289\n", "lagvettu_text_run, a count over the places");
    clear();
    lagvettu_text_try(addresses, words, 4, 0, 0x7001, a, 0, 100, out, &size);
    expect_text("28673 halt 3 00000006 00000000 00000000 00000000 00000000 00000000 00000000 00000000 00000000 00100\n", "lagvettu_text_try");
    expect(words[0] == 0x7001 && words[1] == 0x5380 && words[4] == 5, "lagvettu_text_try, the words");
    addresses[3] = 7;
    clear();
    lagvettu_text_try(addresses, words, 4, 0, 0x7002, a, 0, 100, out, &size);
    expect_text("refused 19 3\n", "lagvettu_text_try, refused");
    clear();
    lagvettu_text_try(addresses, words, LAGVETTU_TEXT_PLACES + 1, 0, 0x7002, a, 0, 100, out, &size);
    expect_text("refused 9 12289\n", "lagvettu_text_try, a count over the places");
    expect(words[0] == 0x7001 && words[4] == 5, "lagvettu_text_try, the words of a refused list");
}

static void sheets(void)
{
    const uint64_t totals[12] = {1, 2, 3, 4, 5, 6, 7, 12, 8, 9, 3, 1};
    const char *text = "skipped 1\norg 2\nlabel 3\ndata 4\nword 5\nwordless 6\nend 7\nwords 12\nmarked 8\nlabels 9\naccepted 3\nrefused 1\nmean 12 3\n";
    uint64_t back[12] = {7, 7};
    size_t line = 9;
    clear();
    lagvettu_text_sheet(totals, out, &size);
    expect_text(text, "lagvettu_text_sheet");
    expect(lagvettu_read_sheet(bytes("skipped 0\norg 01\n"), 17, back, &line) == 1 && line == 2 && back[0] == 7 && back[1] == 7,
           "lagvettu_read_sheet, a wrong line");
    expect(lagvettu_read_sheet(bytes(text), strlen(text), back, &line) == 0 && line == 0 && memcmp(back, totals, sizeof back) == 0,
           "lagvettu_read_sheet");
    expect(lagvettu_read_sheet(bytes(text), strlen(text) - 1, back, &line) == 1 && line == 13, "lagvettu_read_sheet, no end");
}

int main(void)
{
    lists();
    labels();
    reasons();
    printout();
    runs();
    sheets();
    return wrong;
}
