/*
 * Omdurgash from C: transcribes "8b", reads its row back and goes over its signs; and has "1.b" refused.
 *
 * In the top folder of the repository:
 *
 *     ./desk library
 *     cc -I include include/example.c target/staticlib/libdesk.a -o example
 *     ./example
 */
#include "omdurgash.h"

#include <stdio.h>

/* What went wrong, by the refusal's first number. The second number says where, or how much. */
static const char *const refusals[] = {
    "",
    "it is too long; the second number is its length",
    "a code point has no sign; the second number is its place",
    "a pair is broken; the second number is the place of the mark, or the length of the text where one is open at the end",
    "a mark is outside an ordinal or a fraction; the second number is its place",
    "it would share its cells with other print; the second number is the place",
    "there is too little room; the second number is the room needed",
    "a byte is no cell; the second number is its place",
    "no text has this row",
};

/* A refusal is an answer as good as any other: nothing was written, and the two numbers tell why. */
static void show_refusal(size_t number, size_t second)
{
    printf("no %lu %lu: %s\n", (unsigned long)number, (unsigned long)second, refusals[number]);
}

/* A code point in UTF-8. All that have a sign are below U+10000, and so are the braille characters. */
static void show_point(uint32_t point)
{
    if (point < 0x80) {
        putchar((int)point);
    } else if (point < 0x800) {
        putchar((int)(0xC0 | point >> 6));
        putchar((int)(0x80 | (point & 0x3F)));
    } else {
        putchar((int)(0xE0 | point >> 12));
        putchar((int)(0x80 | (point >> 6 & 0x3F)));
        putchar((int)(0x80 | (point & 0x3F)));
    }
}

/* Cells as Unicode's braille characters: U+2800 plus the cell. */
static void show_cells(const uint8_t *cells, size_t count)
{
    size_t i;

    for (i = 0; i < count; i++)
        show_point(0x2800u + cells[i]);
}

/* The text of a row. Room for the longest text there is always suffices. */
static void show_text(const uint8_t *row, size_t row_len)
{
    uint32_t text[DESK_LONGEST_TEXT];
    struct desk_shown shown = desk_read(row, row_len, text, DESK_LONGEST_TEXT);
    size_t i;

    if (shown.number != DESK_DONE) {
        show_refusal(shown.number, shown.second);
        return;
    }
    printf("text ");
    for (i = 0; i < shown.second; i++)
        show_point(text[i]);
    printf("\n");
}

/* The signs of a row, each with its place, its cells and its one or two code points. Each step gives the place of the next one. */
static void show_signs(const uint8_t *row, size_t row_len)
{
    size_t place = 0;

    while (place < row_len) {
        struct desk_sign sign = desk_step(row, row_len, place);

        if (sign.number != DESK_DONE) {
            show_refusal(sign.number, sign.second);
            return;
        }
        printf("sign at %lu: ", (unsigned long)place);
        show_cells(row + place, sign.next - place);
        printf(" ");
        show_point(sign.first);
        if (sign.second == 2)
            show_point(sign.then);
        printf("\n");
        place = sign.next;
    }
}

/* The cells of one paragraph of print, and what they say. */
static void show(const uint32_t *print, size_t print_len)
{
    uint8_t row[DESK_LONGEST_ROW];
    struct desk_shown shown = desk_transcribe(print, print_len, row, DESK_LONGEST_ROW);

    if (shown.number != DESK_DONE) {
        show_refusal(shown.number, shown.second);
        return;
    }
    printf("cells ");
    show_cells(row, shown.second);
    printf("\n");
    show_text(row, shown.second);
    show_signs(row, shown.second);
}

int main(void)
{
    const uint32_t accepted[] = {'8', 'b'};
    const uint32_t refused[] = {'1', '.', 'b'};

    show(accepted, 2);
    show(refused, 3);
    return 0;
}
