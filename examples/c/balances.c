/* Looks up balances on the board that a run file leaves: for each site and account that is named, in the order given, a line with its figures, and
   then how many places of records were visited. A refusal is told in words.
   Rests on input.h, include/board.h and the static library of the crate exports. */
#include "input.h"

#include <inttypes.h>
#include <stdlib.h>

/* No count is higher: the records of all sites have at most so many places. Above it the answer is a refusal. */
#define MOST_PLACES (BOARD_SITES * BOARD_POSTINGS)

static uint8_t pairs[2 * BOARD_PAIRS];
static int64_t lines[BOARD_LINE * BOARD_PAIRS];

static const char *cause(uint64_t number)
{
    switch (number) {
    case 1: return "the run file is malformed";
    case 2: return "the number of sites is outside 3 to 7";
    case 3: return "twice the crashes allowed is not below the number of sites";
    case 4: return "the matrix is not symmetric";
    case 5: return "the matrix lacks a fixed pair";
    case 7: return "a site is named that the board does not have";
    case 18: return "an account is named that there is not";
    default: return "the number says why";
    }
}

/* A number of 0 to 255, in digits; false if the word is something else. */
static bool read_byte(const char *word, uint8_t *byte)
{
    char *end;
    unsigned long number = strtoul(word, &end, 10);
    *byte = (uint8_t)number;
    return word[0] >= '0' && word[0] <= '9' && *end == '\0' && number <= UINT8_MAX;
}

/* The pairs of the arguments; false if some word is no number of a site or an account. */
static bool read_pairs(int count, char **words)
{
    for (int i = 0; i < count; i++) {
        if (!read_byte(words[i], &pairs[i])) {
            return false;
        }
    }
    return true;
}

static void print_line(int i)
{
    const int64_t *four = lines + BOARD_LINE * i;
    printf("site %u, account %u: position %" PRId64 " cents, rate %" PRId64 " per 10,000, called %" PRId64
           " cents, settled %" PRId64 " cents\n",
           (unsigned)pairs[2 * i], (unsigned)pairs[2 * i + 1], four[0], four[1], four[2], four[3]);
}

int main(int argc, char **argv)
{
    size_t length;
    int words = argc - 2;
    if (words < 0 || words % 2 != 0 || words > 2 * BOARD_PAIRS || !read_pairs(words, argv + 2)) {
        fprintf(stderr, "usage: balances RUN_FILE [SITE ACCOUNT]..., up to %d of them\n", BOARD_PAIRS);
        return 1;
    }
    if (!read_input("balances", argv[1], &length)) {
        return 1;
    }
    uint64_t answer = board_run_lookup(input, length, pairs, (size_t)words, lines, BOARD_LINE * BOARD_PAIRS);
    if (answer > MOST_PLACES) {
        uint64_t number = 0 - answer;
        printf("Refused, number %" PRIu64 ": %s.\n", number, cause(number));
        return 0;
    }
    for (int i = 0; i < words / 2; i++) {
        print_line(i);
    }
    printf("Places of records visited: %" PRIu64 "\n", answer);
    return 0;
}
