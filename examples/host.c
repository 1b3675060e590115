/* host: the test of the calls from C, from the caller's side.
 *
 *     tools/build-c && tools/run host | cmp - examples/host.expected
 *
 * Stored inputs are handed to both kinds of call, those of the second edition of lines to the calls with a lent machine, and the answers
 * compared with the stored ones; then with outputs of sizes around the need, with answer buffers of 0 to 8 bytes, with null pointers, and
 * with machines that no one prepared. Every buffer that is written has guard bytes before and behind it. Prints what was tried; and what
 * was wrong, with exit status 1. Run it at the top of the repository. */
#include <stdint.h>
#include <stdio.h>
#include <stdlib.h>
#include <string.h>
#include "mzpaf.h"

typedef uint16_t own_call(const uint8_t *, size_t, uint8_t *, size_t, uint8_t *, size_t);
typedef uint16_t lent_call(const uint8_t *, size_t, const uint8_t *, size_t, uint8_t *, size_t, uint8_t *, size_t);

struct kind {
    const char *name, *inputs, *answers;
    int hex_in;  /* inputs are hexadecimal digits */
    int told;    /* answers are NUMBER PLACE LENGTH DIGITS, else the result itself, or `!`, number and place */
    int headed;  /* inputs and results are tables, and are handed over behind the head of a stored row */
    int lines;   /* the edition of lines */
    own_call *own; /* takes lines of the first edition; none for those of the second */
    lent_call *lent;
};

static const struct kind kinds[] = {
    {"read", "crates/reads/stdin", "crates/reads/stdout", 0, 1, 0, 1, mzpaf_read, mzpaf_read_with},
    {"write", "crates/writes/stdin", "crates/writes/stdout", 1, 1, 0, 1, mzpaf_write, mzpaf_write_with},
    {"convert", "crates/converts/stdin", "crates/converts/stdout", 1, 1, 0, 1, mzpaf_convert, mzpaf_convert_with},
    {"relabel", "crates/relabel/stdin", "crates/relabel/stdout", 0, 0, 0, 1, mzpaf_relabel, mzpaf_relabel_with},
    {"read_row", "crates/row_reads/stdin", "crates/row_reads/stdout", 0, 1, 0, 1, mzpaf_read_row, mzpaf_read_row_with},
    {"write_row", "crates/row_writes/stdin", "crates/row_writes/stdout", 1, 1, 0, 1, mzpaf_write_row, mzpaf_write_row_with},
    {"convert_row", "crates/converts/stdin", "crates/converts/stdout", 1, 1, 1, 1, mzpaf_convert_row, mzpaf_convert_row_with},
    {"relabel_row", "crates/peaks/stdin", "crates/peaks/stdout", 0, 0, 0, 1, mzpaf_relabel_row, mzpaf_relabel_row_with},
    {"read, second", "crates/try_second_reads/stdin", "crates/try_second_reads/stdout", 0, 1, 0, 2, NULL, mzpaf_read_with},
    {"write, second", "crates/try_second_writes/stdin", "crates/try_second_writes/stdout", 1, 1, 0, 2, NULL, mzpaf_write_with},
    {"convert, second", "crates/converts/stdin", "crates/converts/stdout", 1, 1, 0, 2, NULL, mzpaf_convert_with},
    {"relabel, second", "crates/try_second_relabel/stdin", "crates/try_second_relabel/stdout", 0, 0, 0, 2, NULL, mzpaf_relabel_with},
    {"convert_row, second", "crates/converts/stdin", "crates/converts/stdout", 1, 1, 1, 2, NULL, mzpaf_convert_row_with},
    {"relabel_row, second", "crates/try_second_peaks/stdin", "crates/try_second_peaks/stdout", 0, 0, 0, 2, NULL, mzpaf_relabel_row_with},
};

enum { ROOM = 65536, GUARD = 16, MARK = 0xA5 };

/* that of the edition that is tried */
static uint8_t machine[MZPAF_MACHINE_SIZE];
static unsigned long tried, wrong;
static const char *at_kind;
static unsigned long at_line;

static void check(int good, const char *what)
{
    if (!good && wrong++ < 20)
        printf("wrong: %s, line %lu: %s\n", at_kind, at_line, what);
}

/* ---- bytes */

struct bytes {
    uint8_t *at;
    size_t len;
};

static void *room_for(size_t n)
{
    void *p = malloc(n ? n : 1);
    if (!p) {
        printf("no memory\n");
        exit(1);
    }
    return p;
}

/* A copy of its own, as long as its bytes, so that a tool sees who reads past it. */
static struct bytes copy_of(const uint8_t *at, size_t len)
{
    struct bytes b = {room_for(len), len};
    memcpy(b.at, at, len);
    return b;
}

static struct bytes file_of(const char *name)
{
    struct bytes all = {NULL, 0};
    size_t room = 1 << 24;
    FILE *f = fopen(name, "rb");
    if (!f) {
        printf("%s cannot be opened\n", name);
        exit(1);
    }
    all.at = room_for(room);
    all.len = fread(all.at, 1, room, f);
    fclose(f);
    return all;
}

/* The next line of a file, without its line feed; 0 where there is none. */
static int next_line(const struct bytes *all, size_t *at, struct bytes *line)
{
    const uint8_t *feed;
    if (all->len <= *at)
        return 0;
    feed = memchr(all->at + *at, '\n', all->len - *at);
    line->at = all->at + *at;
    line->len = feed ? (size_t)(feed - line->at) : all->len - *at;
    *at += line->len + 1;
    return 1;
}

static int digit(uint8_t b)
{
    return '0' <= b && b <= '9' ? b - '0' : 'a' <= b && b <= 'f' ? b - 'a' + 10 : -1;
}

/* Bytes are two digits each; `-` stands for none. */
static int is_hex(struct bytes text)
{
    for (size_t i = 0; i < text.len; i++)
        if (digit(text.at[i]) < 0)
            return text.len == 1 && *text.at == '-';
    return text.len % 2 == 0;
}

static struct bytes from_hex(struct bytes text)
{
    struct bytes b = {room_for(text.len / 2), text.len / 2};
    for (size_t i = 0; i < b.len; i++)
        b.at[i] = (uint8_t)(digit(text.at[2 * i]) << 4 | digit(text.at[2 * i + 1]));
    return b;
}

/* ---- a table as a stored row, of m/z 500.25 and intensity 7, and what is due of it */

static const uint8_t head[20] = {0x69, 0xC3, 0, 0, 0, 0, 0, 0, 7, 0, 0, 0, 0, 0, 0, 0, 2, 0, 0, 0};

enum { THIRD_AT = sizeof "500.25\t7\t" - 1 };

static struct bytes behind_head(struct bytes table)
{
    struct bytes b = {room_for(sizeof head + table.len), sizeof head + table.len};
    memcpy(b.at, head, sizeof head);
    memcpy(b.at + sizeof head, table.at, table.len);
    free(table.at);
    return b;
}

/* ---- what is due */

struct due {
    unsigned long number, place;
    struct bytes result;
};

static unsigned long number_of(struct bytes *text)
{
    unsigned long n = 0;
    while (text->len && *text->at == ' ')
        text->at++, text->len--;
    while (text->len && '0' <= *text->at && *text->at <= '9')
        n = n * 10 + (unsigned long)(*text->at++ - '0'), text->len--;
    return n;
}

/* The same of a stored row: 9 has no place in it. */
static struct due headed(struct due d)
{
    if (d.number == 0)
        d.result = behind_head(d.result);
    else if (d.number != 9)
        d.place += THIRD_AT;
    return d;
}

static struct due due_of(struct bytes text, int told)
{
    struct due d = {0, 0, {NULL, 0}};
    if (told) {
        d.number = number_of(&text);
        d.place = number_of(&text);
        number_of(&text);
        text.at++, text.len--;
        d.result = from_hex(text);
    } else if (text.len && *text.at == '!') {
        text.at++, text.len--;
        d.number = number_of(&text);
        d.place = number_of(&text);
        d.result = copy_of(text.at, 0);
    } else
        d.result = copy_of(text.at, text.len);
    return d;
}

/* The same with an output of so many bytes. */
static struct due sized(struct due d, size_t room)
{
    if (d.number == 0 && room < d.result.len) {
        d.number = 8;
        d.place = d.result.len;
        d.result.len = 0;
    }
    return d;
}

/* ---- one call, between guards */

static int all_are(const uint8_t *p, size_t n, uint8_t b)
{
    for (size_t i = 0; i < n; i++)
        if (p[i] != b)
            return 0;
    return 1;
}

static uint8_t out_space[ROOM + 2 * GUARD], answer_space[8 + 2 * GUARD];

static uint16_t called(const struct kind *k, int lent, struct bytes in, size_t room, size_t n)
{
    uint8_t *out = out_space + GUARD, *answer = answer_space + GUARD;
    uint16_t r;
    memset(out_space, MARK, room + 2 * GUARD);
    memset(answer_space, MARK, sizeof answer_space);
    r = lent ? k->lent(machine, sizeof machine, in.at, in.len, out, room, answer, n) : k->own(in.at, in.len, out, room, answer, n);
    check(all_are(out_space, GUARD, MARK) && all_are(out + room, GUARD, MARK), "bytes around the output");
    check(all_are(answer_space, GUARD, MARK) && all_are(answer + n, GUARD + 8 - n, MARK), "bytes around the answer");
    tried++;
    return r;
}

static void call(const struct kind *k, int lent, struct bytes in, struct due whole, size_t room, size_t n)
{
    uint8_t *out = out_space + GUARD, *answer = answer_space + GUARD;
    uint16_t r = called(k, lent, in, room, n);
    struct due d = sized(whole, room);
    if (n < MZPAF_ANSWER_SIZE) {
        check(r == 8, "8 for a short answer buffer");
        check(all_are(out, room, 0) && all_are(answer, n, 0), "zeros for a short answer buffer");
        return;
    }
    check(r == d.number && mzpaf_number(answer) == d.number, "the number");
    check(mzpaf_place(answer) == d.place, "the place");
    check(mzpaf_length(answer) == d.result.len, "the length");
    check(all_are(answer + 6, n - 6, 0), "zeros behind the answer");
    check(memcmp(out, d.result.at, d.result.len) == 0, "the result");
    check(all_are(out + d.result.len, room - d.result.len, 0), "zeros behind the result");
}

/* ---- a kind, over its files */

static void sizes(const struct kind *k, int lent, struct bytes in, struct due d)
{
    size_t need = d.result.len, low = need < 3 ? 0 : need - 3;
    for (size_t room = low; room <= need + 3; room++)
        call(k, lent, in, d, room, MZPAF_ANSWER_SIZE);
    for (size_t room = 0; room < 3; room++)
        call(k, lent, in, d, room, 7);
    for (size_t n = 0; n <= 8; n++)
        call(k, lent, in, d, need, n);
    for (size_t n = 0; n <= 8; n++)
        call(k, lent, in, d, need / 2, n);
}

static void every_line(const struct kind *k)
{
    struct bytes inputs = file_of(k->inputs), answers = file_of(k->answers), line, said;
    size_t at = 0, to = 0;
    unsigned long before = tried, done = 0, refused = 0;
    at_kind = k->name;
    for (at_line = 1; next_line(&inputs, &at, &line); at_line++) {
        struct bytes in;
        struct due d;
        check(next_line(&answers, &to, &said), "an answer is stored");
        if (k->hex_in && !is_hex(line)) /* an input of the program `writes` that stands for no bytes */
            continue;
        in = k->hex_in ? from_hex(line) : copy_of(line.at, line.len);
        d = due_of(said, k->told);
        if (k->headed) {
            in = behind_head(in);
            d = headed(d);
        }
        done++;
        refused += d.number != 0;
        for (int lent = k->own == NULL; lent < 2; lent++) {
            call(k, lent, in, d, ROOM, 8);
            if (at_line % 4 == 0)
                sizes(k, lent, in, d);
        }
        free(in.at);
        free(d.result.at);
    }
    check(answers.len <= to, "as many answers as inputs");
    printf("%s: %lu inputs, of which %lu are refused; %lu calls\n", k->name, done, refused, tried - before);
    free(inputs.at);
    free(answers.at);
}

/* ---- null pointers, and machines */

static void nulls(const struct kind *k)
{
    uint8_t out[64], answer[6];
    at_kind = k->name;
    at_line = 0;
    memset(out, MARK, sizeof out);
    check(k->lent(NULL, 0, NULL, 0, NULL, 0, NULL, 0) == 8, "8 for nothing at all");
    if (k->own) {
        check(k->own(NULL, 0, NULL, 0, NULL, 0) == 8, "8 for no buffer at all");
        check(k->own(NULL, 0, out, 64, NULL, 0) == 8 && all_are(out, 64, 0), "zeros where there is no answer buffer");
        check(k->own((const uint8_t *)"y1", 2, NULL, 0, answer, 6) == mzpaf_number(answer), "no output");
        printf("%s: no input is answered %u", k->name, k->own(NULL, 0, out, 64, answer, 6));
    } else {
        printf("%s: no input is answered", k->name);
    }
    printf(", by a lent machine %u", k->lent(machine, sizeof machine, NULL, 0, out, 64, answer, 6));
    printf(", with no machine %u\n", k->lent(NULL, 0, NULL, 0, out, 64, answer, 6));
}

/* A machine in a longer buffer is as good; one of other bytes gives some answer, and leaves all else alone. */
static void machines(const struct kind *k)
{
    static uint8_t other[MZPAF_MACHINE_SIZE + 100];
    static const uint8_t row[] = "1\t2\ty1-N-C,b2-H2O^2/0.2*0.7";
    uint8_t out[400], answer[6], due[400], due_answer[6];
    uint32_t seed = 1;
    at_kind = k->name;
    at_line = 0;
    k->lent(machine, sizeof machine, row, sizeof row - 1, due, sizeof due, due_answer, 6);
    check(mzpaf_prepare(k->lines, other, sizeof other) == 0, "a longer buffer is prepared");
    check(k->lent(other, sizeof other, row, sizeof row - 1, out, sizeof out, answer, 6) == mzpaf_number(due_answer), "by a longer machine");
    check(memcmp(out, due, sizeof due) == 0 && memcmp(answer, due_answer, 6) == 0, "the same by a longer machine");
    for (int turn = 0; turn < 300; turn++) {
        size_t n = turn % 3 == 0 ? sizeof other : turn % 3 == 1 ? MZPAF_MACHINE_SIZE : (size_t)turn * 60;
        for (size_t i = 0; i < n; i++)
            other[i] = (uint8_t)((seed = seed * 1664525 + 1013904223) >> (24 + turn % 8));
        memset(out_space, MARK, 100 + 2 * GUARD);
        memset(answer_space, MARK, sizeof answer_space);
        k->lent(other, n, row, sizeof row - 1, out_space + GUARD, 100, answer_space + GUARD, 6);
        check(all_are(out_space, GUARD, MARK) && all_are(out_space + GUARD + 100, GUARD, MARK), "another machine: around the output");
        check(all_are(answer_space, GUARD, MARK) && all_are(answer_space + GUARD + 6, GUARD, MARK), "another machine: around the answer");
        tried++;
    }
}

static void preparing(uint16_t lines)
{
    static uint8_t space[MZPAF_MACHINE_SIZE + 20 + GUARD];
    static const size_t lengths[] = {0, 1, MZPAF_MACHINE_SIZE - 1, MZPAF_MACHINE_SIZE, MZPAF_MACHINE_SIZE + 20};
    int none = lines != MZPAF_FIRST_LINES && lines != MZPAF_SECOND_LINES;
    at_kind = "prepare";
    for (size_t i = 0; i < sizeof lengths / sizeof *lengths; i++) {
        size_t n = at_line = lengths[i];
        uint16_t r;
        memset(space, MARK, sizeof space);
        r = mzpaf_prepare(lines, space, n);
        check(r == (none ? 9 : n < MZPAF_MACHINE_SIZE ? 8 : 0), "the number");
        check(r ? all_are(space, n, 0) : memcmp(space, machine, sizeof machine) == 0, "the bytes");
        check(r || all_are(space + sizeof machine, n - sizeof machine, 0), "zeros behind the machine");
        check(all_are(space + n, GUARD, MARK), "bytes behind the buffer");
    }
    check(mzpaf_prepare(lines, NULL, 0) == (none ? 9 : 8), "no buffer");
    if (none)
        printf("prepare %u: 9\n", lines);
    else
        printf("prepare %u: 8 below %d bytes, 0 from there on\n", lines, MZPAF_MACHINE_SIZE);
}

int main(void)
{
    size_t count = sizeof kinds / sizeof *kinds;
    static const uint16_t editions[] = {0, 1, 2, 3, 256, 257, 65535};
    for (size_t i = 0; i < sizeof editions / sizeof *editions; i++) {
        mzpaf_prepare(editions[i], machine, sizeof machine);
        preparing(editions[i]);
    }
    for (size_t i = 0; i < count; i++) {
        mzpaf_prepare(kinds[i].lines, machine, sizeof machine);
        every_line(&kinds[i]);
        nulls(&kinds[i]);
        machines(&kinds[i]);
    }
    printf("%lu calls, %lu wrong\n", tried, wrong);
    return wrong != 0;
}
