/* Runs the run file that is named, prints what `board` prints for it, and then, after a drain, the books of every site. A second argument is
   the most events that the drain does; with 0 the books are those of the board as the run leaves it.
   Rests on input.h, include/board.h and the static library of the crate exports. */
#include "input.h"

#include <inttypes.h>
#include <stdlib.h>

/* Where the header has the number of sites. */
#define SITES_AT 5

static uint8_t text[BOARD_TEXT];
static int64_t figures[BOARD_SITES * BOARD_FIGURES];

/* Why a run file is refused, from number 1 on. */
static const char *const CAUSES[] = {
    "it is malformed",
    "the number of sites is outside 3 to 7",
    "twice the crashes allowed is not below the number of sites",
    "its matrix is not symmetric",
    "its matrix lacks a fixed pair",
};

/* The most events of the drain, in digits; false if the word is something else. */
static bool read_limit(const char *word, uint64_t *limit)
{
    char *end;
    errno = 0;
    *limit = strtoull(word, &end, 10);
    return word[0] >= '0' && word[0] <= '9' && *end == '\0' && errno == 0;
}

/* The text of a refused file is `F`, a space and a number of one digit. */
static void print_refused(void)
{
    int number = text[2] - '0';
    printf("The run file is refused, number %d: %s.\n", number, CAUSES[number - 1]);
}

/* Prints an account's four numbers on a line, unless all are 0; whether it did. */
static bool print_account(int site, int account, const int64_t *four)
{
    if (four[0] == 0 && four[1] == 0 && four[2] == 0 && four[3] == 0) {
        return false;
    }
    printf("site %d, account %d: position %" PRId64 " cents, rate %" PRId64 " per 10,000, called %" PRId64
           " cents, settled %" PRId64 " cents\n",
           site, account, four[0], four[1], four[2], four[3]);
    return true;
}

static void print_books(int sites)
{
    for (int site = 0; site < sites; site++) {
        const int64_t *own = figures + BOARD_FIGURES * site;
        bool some = false;
        for (int account = 0; account < BOARD_FIGURES / 4; account++) {
            some = print_account(site, account, own + 4 * account) || some;
        }
        if (!some) {
            printf("site %d: no figures\n", site);
        }
    }
}

int main(int argc, char **argv)
{
    size_t length;
    uint64_t limit = BOARD_DRAIN_LIMIT;
    if (argc < 2 || argc > 3 || (argc == 3 && !read_limit(argv[2], &limit))) {
        fprintf(stderr, "usage: books RUN_FILE [EVENTS]\n");
        return 1;
    }
    if (!read_input("books", argv[1], &length)) {
        return 1;
    }
    /* Both slices are long enough for every file: so the first call answers a count, and the second a count unless the
       file is refused. */
    uint64_t bytes = board_run_file(input, length, text, BOARD_TEXT);
    uint64_t events = board_run_drain(input, length, limit, figures, BOARD_SITES * BOARD_FIGURES);
    fwrite(text, 1, (size_t)bytes, stdout);
    if (events == BOARD_NO_COUNT) {
        print_refused();
        return 0;
    }
    printf("After a drain of %" PRIu64 " events the books of the sites are:\n", events);
    print_books(input[SITES_AT]);
    return 0;
}
