/* Calls the library through its header, and prints both numbers of each answer and what was written. A test of rust/vectors builds and runs it. */
#include "omdurgash.h"

#include <stdio.h>

static void show_numbers(size_t number, size_t second)
{
    printf("%lu %lu\n", (unsigned long)number, (unsigned long)second);
}

/* Reads the row, and then goes over it sign by sign: of each, its place, the next one and its code points. */
static void show_read(const uint8_t *row, size_t row_len)
{
    uint32_t text[DESK_LONGEST_TEXT];
    struct desk_shown shown = desk_read(row, row_len, text, sizeof text / sizeof text[0]);
    struct desk_sign sign;
    size_t i;

    printf("read ");
    show_numbers(shown.number, shown.second);
    if (shown.number == DESK_DONE) {
        for (i = 0; i < shown.second; i++)
            printf(i == 0 ? "%lX" : " %lX", (unsigned long)text[i]);
        printf("\n");
    }
    for (i = 0; i < row_len; i = sign.next) {
        sign = desk_step(row, row_len, i);
        printf("step %lu to %lu: ", (unsigned long)i, (unsigned long)sign.next);
        if (sign.number != DESK_DONE) {
            printf("no ");
            show_numbers(sign.number, sign.second);
            return;
        }
        printf("%lu %lX %lX\n", (unsigned long)sign.second, (unsigned long)sign.first, (unsigned long)sign.then);
        if (sign.next == i)
            return;
    }
}

/* Transcribes the print, and reads what it gave. */
static void show(const uint32_t *print, size_t print_len)
{
    uint8_t row[DESK_LONGEST_ROW];
    struct desk_shown shown = desk_transcribe(print, print_len, row, sizeof row);
    size_t i;

    show_numbers(shown.number, shown.second);
    if (shown.number != DESK_DONE)
        return;
    for (i = 0; i < shown.second; i++)
        printf(i == 0 ? "%d" : " %d", row[i]);
    printf("\n");
    show_read(row, shown.second);
}

int main(void)
{
    const uint32_t number_then_letter[] = {'8', 'b'};
    const uint32_t number_point_letter[] = {'1', '.', 'b'};
    const uint32_t fraction[] = {'3', 0x2044, '4'};
    const uint8_t two_capitals_each_with_its_46[] = {40, 1, 40, 3};
    const uint8_t no_cell[] = {1, 64};
    uint32_t too_little[1];
    struct desk_shown shown;
    struct desk_sign sign;

    show(number_then_letter, 2);
    show(number_point_letter, 3);
    show(fraction, 3);
    /* The empty print: the pointer is not null. */
    show(number_then_letter, 0);
    show_read(two_capitals_each_with_its_46, sizeof two_capitals_each_with_its_46);
    show_read(no_cell, sizeof no_cell);
    /* Too little room, and a place past the end. */
    shown = desk_read(no_cell + 1, 0, too_little, 0);
    show_numbers(shown.number, shown.second);
    shown = desk_read((const uint8_t *)"\001\003", 2, too_little, 1);
    show_numbers(shown.number, shown.second);
    sign = desk_step(no_cell, 1, 7);
    printf("%lu %lu %lu\n", (unsigned long)sign.number, (unsigned long)sign.second, (unsigned long)sign.next);
    return 0;
}
