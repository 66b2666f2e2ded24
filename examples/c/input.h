/* A run file read into memory, for the programs of this folder.
   Rests on include/board.h for how long a run file is. */
#include "board.h"

#include <errno.h>
#include <stdio.h>
#include <string.h>

/* One byte more than the longest run file has: what fills it is malformed, however much follows. */
#define ROOM (BOARD_HEADER + BOARD_EVENTS * BOARD_EVENT + 1)

static uint8_t input[ROOM];

/* Fills the input from a file; false, with a line on standard error that names the program, if it cannot be read. */
static bool read_input(const char *program, const char *path, size_t *length)
{
    FILE *file = fopen(path, "rb");
    bool whole = file != NULL;
    if (whole) {
        *length = fread(input, 1, sizeof input, file);
        whole = ferror(file) == 0;
    }
    if (!whole) {
        fprintf(stderr, "%s: cannot read %s: %s\n", program, path, strerror(errno));
    }
    if (file != NULL) {
        fclose(file);
    }
    return whole;
}
