/* Reads a tray file on standard input, composes each side with a least overlap of 1, and prints the legend, the joins
 * and the slips that are set aside. A refusal is printed in words with its detail, and then the program returns 1. */
#include <stdio.h>
#include "kotsghane_structs.h"

static uint8_t file[KOTSGHANE_MAX_FILE + 1];
static kotsghane_tray_buffers tray_buffers;
static kotsghane_buffers buffers;

static int refused(uint32_t number, uint32_t detail, kotsghane_tray tray) {
    const char *what = kotsghane_detail_text(number);
    printf("Refused: %s", kotsghane_refusal_text(number));
    if (what != NULL) printf(" (%s %lu)", what, (unsigned long)detail);
    if (number == KOTSGHANE_REFUSED_BAD_SLIP_BYTE) {
        kotsghane_letters s = kotsghane_slip_letters(tray, detail);
        fputs(": ", stdout); /* what is no letter was filed as 0, and is printed as a question mark */
        for (size_t i = 0; i < s.letters_len; i++) putchar(s.letters[i] == 0 ? '?' : s.letters[i]);
    }
    putchar('\n');
    return 1;
}

/* Prints the side that was composed with these buffers. */
static void print_side(kotsghane_tray tray, kotsghane_composed c, uint8_t side) {
    if (side != KOTSGHANE_BLANK) printf("Side %c\n", side);
    printf("Legend: %.*s\n", (int)c.legend, (const char *)buffers.legend);
    for (const kotsghane_join *j = buffers.joins; j < buffers.joins + c.joins; j++)
        printf("Join: slip %d, slip %d, overlap %d\n", j->left, j->right, j->overlap);
    for (const kotsghane_place *p = buffers.places; p < buffers.places + c.slips; p++) {
        kotsghane_letters s = kotsghane_slip_letters(tray, p->slip);
        if (!p->kept) printf("Set aside: slip %d, %.*s, at place %d\n", p->slip, (int)s.letters_len, (const char *)s.letters, p->place);
    }
}

int main(void) {
    static const uint8_t sides[] = {KOTSGHANE_BLANK, KOTSGHANE_OBVERSE, KOTSGHANE_REVERSE};
    size_t bytes = fread(file, 1, sizeof file, stdin);
    if (ferror(stdin)) return puts("Standard input cannot be read"), 1;
    kotsghane_written w = kotsghane_read_tray_file(file, bytes, kotsghane_lend_tray(&tray_buffers));
    if (w.number != KOTSGHANE_ACCEPTED) return refused(w.number, w.detail, w.tray);
    for (size_t i = 0; i < sizeof sides; i++) {
        kotsghane_settings settings = {1, sides[i]};
        kotsghane_composed c = kotsghane_compose_tray(w.tray, settings, kotsghane_lend(&buffers));
        if (c.number != KOTSGHANE_ACCEPTED) return refused(c.number, c.detail, w.tray);
        if (c.slips > 0) print_side(w.tray, c, sides[i]);
    }
    return 0;
}
