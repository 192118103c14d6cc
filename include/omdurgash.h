/*
 * Omdurgash for C: Spanish print to six-dot braille cells, and back. C99; also C++.
 *
 * Build the library in the top folder of the repository, and link it (Linux, x86-64 or aarch64):
 *
 *     ./desk library
 *     cc -I include PROGRAM.c target/staticlib/libdesk.a -o PROGRAM
 *
 * example.c, beside this file, is a program to begin with.
 *
 * The library calls memcpy and memset of the C library and nothing else. It allocates nothing, keeps nothing between calls and may be called from
 * several threads at once.
 *
 * A cell is a byte of 0 to 63: dot 1 counts 1, dot 2 counts 2, dot 3 counts 4, dot 4 counts 8, dot 5 counts 16, dot 6 counts 32; the blank cell
 * is 0. Print and text are code points, each in 32 bits. A text is normalised print: U+2026 is three full stops in it, “ and ” are « and »,
 * ‹ and › are ‘ and ’, and a º or ª directly after a digit has a full stop before it. A row has at most one text.
 */
#ifndef OMDURGASH_H
#define OMDURGASH_H

#include <stddef.h>
#include <stdint.h>

#ifdef __cplusplus
extern "C" {
#endif

/* Room for so many cells is never too little: no print that is accepted has more. A row of more cells is refused. */
#define DESK_LONGEST_ROW 12288

/* Room for so many code points is never too little: no row that is accepted has a longer text. Print whose text is longer is refused. */
#define DESK_LONGEST_TEXT 4096

/*
 * The numbers that the desk shows, and what the second number is with each. Places count from 0: in the text where print is transcribed, in the
 * row where a row is read. A length above 4,294,967,295 is given as that number.
 */
enum desk_number {
    /* It is done: how many cells were written, or code points; from a step, how many code points the sign has. */
    DESK_DONE = 0,
    /* The text of the print is above 4,096 code points, the row is above 12,288 cells, or it has a text above 4,096: that length. */
    DESK_TOO_LONG = 1,
    /* A code point has no sign: its place. Only for print, as all up to DESK_SHARES_CELLS. */
    DESK_NO_SIGN = 2,
    /* A pair mark stands against the pair rule: its place; or the length of the text, where one is open at the end. */
    DESK_PAIR_BROKEN = 3,
    /* º, ª or U+2044 stands outside an ordinal or a fraction: its place. */
    DESK_OUTSIDE_FORM = 4,
    /* The print would share its cells with another print: the place where it would. */
    DESK_SHARES_CELLS = 5,
    /* There is too little room for the cells, or for the text: the room that they need. Never from a step. */
    DESK_NEEDS_ROOM = 6,
    /* A byte of the row is above 63: the first place of such a one. Only for rows, as the next. */
    DESK_NOT_A_CELL = 7,
    /* No text of any length has the row: 0. */
    DESK_NO_TEXT = 8
};

/* An answer: one of the numbers above, and its second number. */
struct desk_shown {
    size_t number;
    size_t second;
};

/*
 * For every function the caller sees to it that
 *   - a pointer points to as many elements as the length after it says, which can be read, and also written where the pointer is not to const;
 *   - no pointer is null, and one to uint32_t is aligned as such, also where the length is 0 (the address of any variable of the type will do);
 *   - what can be written shares no byte with the other argument, and no other thread touches it, or writes to the other, during the call;
 *   - some 40 kilobytes of the stack are free.
 * Nothing else is asked: any numbers may stand in what is lent, and any length is answered.
 */

/*
 * Transcribes one paragraph.
 *
 *   print, print_len   the print: so many code points
 *   row, row_len       the row for the cells: room for so many
 *
 * Where the answer's number is DESK_DONE, its second number is the count of cells, and they stand in the row from row[0] on, one to a byte. The
 * bytes after them are as they were. Any other number is a refusal, and then every byte of the row is as it was.
 *
 * Of several refusals the first in this order is given: DESK_TOO_LONG; that with the least place; DESK_NEEDS_ROOM.
 */
struct desk_shown desk_transcribe(const uint32_t *print, size_t print_len, uint8_t *row, size_t row_len);

/*
 * Reads one row: finds the only text that has it.
 *
 *   row, row_len       the row: so many cells
 *   text, text_len     the room for the text: so many code points. As many as the row has cells are never too few.
 *
 * Where the answer's number is DESK_DONE, its second number is the count of code points, and they stand in the text from text[0] on. The elements
 * after them are as they were. Any other number is a refusal, and then every element of the text is as it was.
 *
 * Of several refusals the first in this order is given: DESK_TOO_LONG for the row; DESK_NOT_A_CELL; DESK_NO_TEXT; DESK_TOO_LONG for its text;
 * DESK_NEEDS_ROOM.
 */
struct desk_shown desk_read(const uint8_t *row, size_t row_len, uint32_t *text, size_t text_len);

/*
 * What a step gives. A sign is the cells of one code point, with any 46-46, 46, 3456 or separating 5 before them. A code point without a cell
 * goes with the sign after it: the full stop of an ordinal with its º or ª, U+2044 with the first digit of the denominator.
 */
struct desk_sign {
    /* DESK_DONE, or the refusal. */
    size_t number;
    /* How many code points the sign has: 1 or 2, or 0 where no sign starts at the place; or the refusal's second number. */
    size_t second;
    /* The code points, in their order: 0 where there is none. */
    uint32_t first;
    uint32_t then;
    /* The place after the sign; the place that was given, where no sign starts there or the row is refused. */
    size_t next;
};

/*
 * Steps over one sign of a row.
 *
 *   row, row_len       the row: so many cells
 *   place              where the sign is to start: any number
 *
 * The answer follows from the row and the place alone. No sign starts at or past the row's end, nor within a sign. From 0 on, the steps go over
 * every sign of the row once, and their code points, one after the other, are its text. Each step reads the whole row.
 *
 * A row that desk_read refuses where there is room enough is refused with the same two numbers, whatever the place is: never with DESK_NEEDS_ROOM.
 */
struct desk_sign desk_step(const uint8_t *row, size_t row_len, size_t place);

#ifdef __cplusplus
}
#endif

#endif
