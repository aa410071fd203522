/*
 * Assembles the script on standard input at 0 and prints its list, then moves the list to $2000 and prints it again.
 * A line is a place's address, word and mark; a refusal is the line `refused`, number, place, and status 1, with the line
 * of the script on standard error where it is one line's fault.
 */
#include <inttypes.h>
#include <stdio.h>

#include "lagvettu.h"

static uint8_t source[LAGVETTU_MAX_SOURCE];
static uint32_t addresses[LAGVETTU_MAX_PLACES];
static uint16_t words[LAGVETTU_MAX_PLACES];
static uint8_t marks[LAGVETTU_MAX_PLACES];

/* Prints a call's answer: the list, or the refusal. Whether the call was accepted. */
static int print_answer(uint8_t number, size_t place)
{
    if (number != LAGVETTU_ACCEPTED) {
        printf("refused %" PRIu8 " %zu\n", number, place);
        if (number == LAGVETTU_ADDRESS_TOO_HIGH)
            fprintf(stderr, "bezel: line %zu: the address after it is too high\n", place);
        if (number == LAGVETTU_TOO_MANY_LABELS)
            fprintf(stderr, "bezel: line %zu: one label too many\n", place);
        return 0;
    }
    for (size_t i = 0; i < place; i++)
        printf("%08" PRIX32 " %04" PRIX16 " %" PRIu8 "\n", addresses[i], words[i], marks[i]);
    return 1;
}

int main(void)
{
    size_t length = fread(source, 1, sizeof source, stdin);
    if (ferror(stdin) || getchar() != EOF) {
        fputs("bezel: the script was not read to its end\n", stderr);
        return 1;
    }

    size_t count;
    uint8_t number = lagvettu_assemble(source, length, 0, addresses, LAGVETTU_MAX_PLACES, words, LAGVETTU_MAX_PLACES,
                                       marks, LAGVETTU_MAX_PLACES, &count);
    if (!print_answer(number, count))
        return 1;

    size_t place;
    number = lagvettu_move(addresses, LAGVETTU_MAX_PLACES, words, LAGVETTU_MAX_PLACES, marks, LAGVETTU_MAX_PLACES,
                           count, 0x2000, &place);
    return print_answer(number, place) ? 0 : 1;
}
