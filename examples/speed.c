/* speed: how long the calls by a lent machine take, for the lines of standard input.
 *
 *     tools/build-c speed && tools/run speed < lines.txt
 *
 * Prints processor time in nanoseconds for each line, the best of nine turns over all lines: reading, writing the table that was read, and
 * relabelling, each into an output that is long enough for every result; and how many lines were refused. */
#include <stdint.h>
#include <stdio.h>
#include <stdlib.h>
#include <string.h>
#include <time.h>
#include "mzpaf.h"

enum { ROOM = 1 << 26, TURNS = 9 };

static uint8_t machine[MZPAF_MACHINE_SIZE], out[MZPAF_MAX_TABLE], again[MZPAF_MAX_LINE], answer[MZPAF_ANSWER_SIZE];
static uint8_t *all;
static size_t len;

/* One turn over all lines: 0 reads, 1 reads and writes, 2 relabels. Returns the lines; counts those refused. */
static unsigned long turn(int what, size_t room, unsigned long *refused)
{
    unsigned long lines = 0;
    *refused = 0;
    for (size_t at = 0; at < len; lines++) {
        const uint8_t *feed = memchr(all + at, '\n', len - at);
        size_t n = feed ? (size_t)(feed - (all + at)) : len - at;
        uint16_t r;
        if (what == 2)
            r = mzpaf_relabel_with(machine, sizeof machine, all + at, n, again, n + 16 < sizeof again ? n + 16 : sizeof again, answer, sizeof answer);
        else
            r = mzpaf_read_with(machine, sizeof machine, all + at, n, out, room, answer, sizeof answer);
        if (what == 1 && r == 0)
            r = mzpaf_write_with(machine, sizeof machine, out, mzpaf_length(answer), again, n + 16 < sizeof again ? n + 16 : sizeof again, answer, sizeof answer);
        *refused += r != 0;
        at += n + 1;
    }
    return lines;
}

static double best(int what, size_t room)
{
    double least = 1e9;
    unsigned long refused, lines = 0;
    for (int i = 0; i < TURNS; i++) {
        clock_t before = clock();
        double took;
        lines = turn(what, room, &refused);
        took = (double)(clock() - before) / CLOCKS_PER_SEC * 1e9 / (double)(lines ? lines : 1);
        least = took < least ? took : least;
    }
    printf("%lu lines, %lu refused: ", lines, refused);
    return least;
}

int main(void)
{
    int b;
    all = malloc(ROOM);
    if (!all)
        return 1;
    while (len < ROOM && (b = getchar()) != EOF)
        all[len++] = (uint8_t)b;
    mzpaf_prepare(MZPAF_FIRST_LINES, machine, sizeof machine);
    printf("read, output of 1,024 bytes: %.0f ns\n", best(0, 1024));
    printf("read, output of %d bytes: %.0f ns\n", MZPAF_MAX_TABLE, best(0, MZPAF_MAX_TABLE));
    printf("read and write: %.0f ns\n", best(1, 1024));
    printf("relabel: %.0f ns\n", best(2, 0));
    free(all);
    return 0;
}
