/* label: reads a peak list on standard input, and prints for each peak what a drawing tool would put over it.
 *
 *     tools/build-c && tools/run label < examples/peaks.txt
 *
 * A row is m/z, a tab, intensity, and perhaps a tab and an mzPAF line. Printed are m/z, a tab, and the annotations in preferred spelling,
 * each without its deviation and confidence, which no one draws; or, of a row that is refused, `!`, the number and the place. */
#include <stdint.h>
#include <stdio.h>
#include "mzpaf.h"

/* A row, and one byte more, which tells that it is too long. */
static uint8_t row[MZPAF_MAX_ROW + 1];

/* Prints one annotation of a line that was read, up to its deviation or confidence, and returns where the next begins. Neither `/`, `*`
 * nor `,` ends it inside braces or brackets; inside braces a bracket is a byte like others, and inside brackets a brace. */
static size_t draw(const uint8_t *text, size_t at, size_t end)
{
    int braced = 0, depth = 0, drawn = 1;
    for (; at < end; at++) {
        uint8_t b = text[at];
        if (depth == 0 && (b == '{' || b == '}'))
            braced = b == '{';
        else if (!braced)
            depth += (b == '[') - (b == ']');
        if (!braced && depth == 0 && b == ',')
            return at + 1;
        if (!braced && depth == 0 && (b == '/' || b == '*'))
            drawn = 0;
        if (drawn)
            putchar(b);
    }
    return end;
}

/* Prints a row in preferred spelling, of which the columns end at tabs. */
static void draw_row(const uint8_t *text, size_t end)
{
    size_t at = 0;
    while (text[at] != '\t')
        putchar(text[at++]);
    putchar('\t');
    for (at++; at < end && text[at] != '\t'; at++)
        ;
    for (at++; at < end; at = draw(text, at, end))
        if (text[at - 1] == ',')
            putchar(' ');
}

int main(void)
{
    static uint8_t machine[MZPAF_MACHINE_SIZE], out[MZPAF_MAX_ROW];
    uint8_t answer[MZPAF_ANSWER_SIZE];
    mzpaf_prepare(MZPAF_FIRST_LINES, machine, sizeof machine); /* once */
    for (;;) {
        size_t len = 0;
        int b;
        while ((b = getchar()) != EOF && b != '\n')
            if (len < sizeof row)
                row[len++] = (uint8_t)b;
        if (b == EOF && len == 0)
            return 0;
        if (mzpaf_relabel_row_with(machine, sizeof machine, row, len, out, sizeof out, answer, sizeof answer) == 0)
            draw_row(out, mzpaf_length(answer));
        else
            printf("!%u %u", mzpaf_number(answer), mzpaf_place(answer));
        putchar('\n');
    }
}
