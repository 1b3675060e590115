/*
 * mzpaf.h: labels of peaks in mzPAF, read and written. Link target/staticlib/libcapi.a (`tools/build-c`), for Linux on x86-64;
 * besides it memcpy and memset of any C library are needed, and nothing else.
 *
 * Every call takes pointers with a length in bytes behind each, and returns a number: 0 where all went well, else why not.
 *
 *   in      the bytes that are read: a line, a table, a row. No zero at the end is needed or looked for.
 *   out     where the result goes. On 0 it holds the result and zeros behind it, on any other number zeros throughout.
 *   answer  six bytes or more: number, place and length, each a uint16_t, lowest byte first; zeros behind the sixth.
 *           Take them with mzpaf_number, mzpaf_place and mzpaf_length.
 *           With fewer than six bytes the call returns 8, and both buffers are zero throughout; 8 with six bytes or more
 *           says that out is too short, and then the place is the number of bytes that it needs.
 *
 *   number  0 done; 1 longer than 4,096 bytes (a row: 4,160); 2 a stray byte; 3 could still become a line; 4 a number past its bound;
 *           5 too many; 6 a rule for one annotation is broken; 7 the confidences exceed 1; 8 too short a buffer; 9 the bytes are no
 *           table or stored row; 10 a table of edition 1, which is to be converted first; 11 a sequence in braces is not of the plain
 *           form; 12 a bad m/z; 13 a bad intensity; 20 a table with letters, for a line of the first edition.
 *           docs/REFUSALS.md says each in plain words.
 *   place   the byte of in that the number speaks of, counted from 0, and where a table is converted the byte of its line, in preferred
 *           spelling; for 8 the bytes needed; 0 for 0, 9, 10 and 20.
 *   length  how many bytes of out the result has; 0 unless the number is 0.
 *
 * Editions: a table begins with the number of its edition. Reading gives edition 2, in which an annotation has 38 bytes; the last two
 * are the count of residues of its sequence. Writing takes edition 2. A table of edition 1, in which an annotation has 36 bytes and no
 * such count, is taken by mzpaf_convert alone, which gives the table of edition 2 of the same line.
 *
 * Editions of lines: in the second an internal ion may have letters, as in mxa3:6; in the first, which the calls without a machine take,
 * such a line is 2 at its first letter, and a table that has letters is 20 when it is written. Lines and tables without letters are
 * answered the same in both. Which edition a call takes is told by the machine that it is lent: prepare one with MZPAF_SECOND_LINES for
 * the second.
 *
 * Who owns what: the caller owns every buffer, and may free or reuse it once the call has returned. Nothing is allocated, kept or
 * written but out, answer and the machine that is prepared. All bytes of out and answer are written by every call, so they need not
 * be set before. out and answer must not overlap each other or anything else that the call is given.
 * A null pointer is good where the length is 0, for every buffer.
 *
 * Threads: there is no state. Calls may run at the same time as long as none writes what another uses; a prepared machine is only
 * read, so that one may serve all threads.
 *
 * Stack, as measured, at most: by a prepared machine 7 KB where a line is read or relabelled, 97 KB where a table is written or converted,
 * and 162 KB where it or its line has more than 1,024 bytes. To prepare one 75 KB, as for the calls that make their own where they take a
 * line; where they take a table 115 KB and 181 KB.
 */
#ifndef MZPAF_H
#define MZPAF_H

#include <stddef.h>
#include <stdint.h>

#ifdef __cplusplus
extern "C" {
#endif

#define MZPAF_ANSWER_SIZE 6       /* bytes of an answer */
#define MZPAF_MACHINE_SIZE 18688  /* bytes of a machine */
#define MZPAF_FIRST_LINES 1       /* the editions of lines, for mzpaf_prepare */
#define MZPAF_SECOND_LINES 2
#define MZPAF_MAX_LINE 4096       /* bytes of a line, and enough for every result of mzpaf_write and mzpaf_relabel */
#define MZPAF_MAX_ROW 4160        /* bytes of a row, and enough for every result of mzpaf_write_row and mzpaf_relabel_row */
#define MZPAF_MAX_TABLE 21372     /* enough for every result of mzpaf_read */
#define MZPAF_MAX_STORED_ROW 21392  /* enough for every result of mzpaf_read_row */
#define MZPAF_MORE_CONVERTED 32   /* so many bytes more than the old table, or the old stored row, are enough for what it is converted to */

/* ---- one line, one table, one row of a peak list, by lines of the first edition. These make the machine at each call, which takes some 12 microseconds; whoever has
 *      many should prepare one and use the calls below. */

/* The table that a line spells, of edition 2. docs/TABLE.md has its bytes. */
uint16_t mzpaf_read(const uint8_t *line, size_t line_len, uint8_t *out, size_t out_len, uint8_t *answer, size_t answer_len);

/* The line that spells a table of edition 2, in preferred spelling. */
uint16_t mzpaf_write(const uint8_t *table, size_t table_len, uint8_t *out, size_t out_len, uint8_t *answer, size_t answer_len);

/* The table of edition 2 of the line that a table of edition 1 has, also where that line has more than 4,096 bytes. It is what mzpaf_read
 * gives for the line; 11 and 6 are refused as there, at the place in the line. A table of edition 2 is 9 here. */
uint16_t mzpaf_convert(const uint8_t *table, size_t table_len, uint8_t *out, size_t out_len, uint8_t *answer, size_t answer_len);

/* A line in preferred spelling: what mzpaf_write gives for what mzpaf_read gives. */
uint16_t mzpaf_relabel(const uint8_t *line, size_t line_len, uint8_t *out, size_t out_len, uint8_t *answer, size_t answer_len);

/* The stored form of a row: m/z, a tab, intensity, and perhaps a tab and a line; no line feed. It is 20 bytes and a table of
 * edition 2. */
uint16_t mzpaf_read_row(const uint8_t *row, size_t row_len, uint8_t *out, size_t out_len, uint8_t *answer, size_t answer_len);

/* The row of a stored row, whose table is of edition 2, in preferred spelling, without a line feed. */
uint16_t mzpaf_write_row(const uint8_t *stored, size_t stored_len, uint8_t *out, size_t out_len, uint8_t *answer, size_t answer_len);

/* The stored row with the table of edition 2, of one with a table of edition 1; places are those of its row in preferred spelling. */
uint16_t mzpaf_convert_row(const uint8_t *stored, size_t stored_len, uint8_t *out, size_t out_len, uint8_t *answer, size_t answer_len);

/* A row in preferred spelling. */
uint16_t mzpaf_relabel_row(const uint8_t *row, size_t row_len, uint8_t *out, size_t out_len, uint8_t *answer, size_t answer_len);

/* ---- the same by a lent machine */

/* Puts the machine of an edition of lines, MZPAF_FIRST_LINES or MZPAF_SECOND_LINES, into a buffer of MZPAF_MACHINE_SIZE bytes or more,
 * zeros behind it, and returns 0. For another number the buffer is zeroed, and 9 is returned; for a shorter buffer it is zeroed, and 8 is
 * returned. The buffer may be moved or copied; its bytes are the same on every computer. */
uint16_t mzpaf_prepare(uint16_t lines, uint8_t *machine, size_t machine_len);

/* By lines of the edition that the machine was prepared for; mzpaf_convert_with and mzpaf_convert_row_with answer the same by either.
 * With a machine that was not prepared the answers mean nothing, but there is one, and no fault: nothing is read or written outside the
 * buffers. */
uint16_t mzpaf_read_with(const uint8_t *machine, size_t machine_len, const uint8_t *line, size_t line_len, uint8_t *out, size_t out_len,
                         uint8_t *answer, size_t answer_len);
uint16_t mzpaf_write_with(const uint8_t *machine, size_t machine_len, const uint8_t *table, size_t table_len, uint8_t *out, size_t out_len,
                          uint8_t *answer, size_t answer_len);
uint16_t mzpaf_convert_with(const uint8_t *machine, size_t machine_len, const uint8_t *table, size_t table_len, uint8_t *out, size_t out_len,
                            uint8_t *answer, size_t answer_len);
uint16_t mzpaf_relabel_with(const uint8_t *machine, size_t machine_len, const uint8_t *line, size_t line_len, uint8_t *out, size_t out_len,
                            uint8_t *answer, size_t answer_len);
uint16_t mzpaf_read_row_with(const uint8_t *machine, size_t machine_len, const uint8_t *row, size_t row_len, uint8_t *out, size_t out_len,
                             uint8_t *answer, size_t answer_len);
uint16_t mzpaf_write_row_with(const uint8_t *machine, size_t machine_len, const uint8_t *stored, size_t stored_len, uint8_t *out,
                              size_t out_len, uint8_t *answer, size_t answer_len);
uint16_t mzpaf_convert_row_with(const uint8_t *machine, size_t machine_len, const uint8_t *stored, size_t stored_len, uint8_t *out,
                                size_t out_len, uint8_t *answer, size_t answer_len);
uint16_t mzpaf_relabel_row_with(const uint8_t *machine, size_t machine_len, const uint8_t *row, size_t row_len, uint8_t *out, size_t out_len,
                                uint8_t *answer, size_t answer_len);

/* ---- the three numbers of an answer of six bytes or more */

static inline uint16_t mzpaf_number(const uint8_t *answer) { return (uint16_t)(answer[0] | answer[1] << 8); }
static inline uint16_t mzpaf_place(const uint8_t *answer) { return (uint16_t)(answer[2] | answer[3] << 8); }
static inline uint16_t mzpaf_length(const uint8_t *answer) { return (uint16_t)(answer[4] | answer[5] << 8); }

#ifdef __cplusplus
}
#endif

#endif
