/* What the sample does not reach: the version, the words of every refusal, slips that are not there, lists that just hold what is written, and sides: the
 * records of each, sides without slips, and what is refused before them, by them and after them. */
#include "kotsghane_structs.h"
#include <inttypes.h>
#include <stdio.h>
#include <string.h>

static kotsghane_buffers buffers;
static kotsghane_tray_buffers tray_buffers;
static const kotsghane_settings usual = {1, KOTSGHANE_BLANK};

/* Prints which refusals have a detail, how many numbers have words of their own, and how many pairs of these have the same words. */
static void say_refusals(void) {
    const char *no_number = kotsghane_refusal_text(UINT32_MAX);
    int with_words = 0, alike = 0;
    for (uint32_t number = 0; number < 100; number++) {
        const char *words = kotsghane_refusal_text(number), *what = kotsghane_detail_text(number);
        if (what != NULL) {
            printf("%" PRIu32 " %s\n", number, what);
        }
        with_words += strcmp(words, no_number) != 0;
        for (uint32_t other = 0; other < number && strcmp(words, no_number) != 0; other++) {
            alike += strcmp(words, kotsghane_refusal_text(other)) == 0;
        }
    }
    printf("%d with words, %d alike\n", with_words, alike);
}

/* Prints the slips 0 to 3 of a tray of ten letters with the ends 7 and `end`. The numbers around these are not of the tray. */
static void say_slips(uint16_t end) {
    const uint16_t around[] = {0, 2, 7, end, 10};
    kotsghane_tray tray = kotsghane_blank_tray((const uint8_t *)"IMPCAESAES", 10, around + 2, 2);
    printf("ends 7 %u:", end);
    for (uint32_t i = 0; i <= 3; i++) {
        kotsghane_letters slip = kotsghane_slip_letters(tray, i);
        kotsghane_span span = kotsghane_slip_span(tray, i);
        printf(" (%.*s)", (int)slip.letters_len, (const char *)slip.letters);
        printf(" %" PRIu32 " %" PRIu32 " %" PRIu32 " %" PRIu32, span.number, span.detail, span.start, span.end);
    }
    printf("\n");
}

/* Composes a tray with this many joins and places lent, and prints every number of the answer. */
static kotsghane_composed say_composed(kotsghane_tray tray, kotsghane_settings settings, size_t joins, size_t places) {
    kotsghane_lent lent = kotsghane_lend(&buffers);
    lent.joins_len = joins;
    lent.places_len = places;
    kotsghane_composed c = kotsghane_compose_tray(tray, settings, lent);
    printf("composed %" PRIu32 " %" PRIu32 ": slips %" PRIu32 ", kept %" PRIu32 ", kept letters %" PRIu32, c.number, c.detail, c.slips, c.kept,
           c.kept_letters);
    printf(", saved %" PRIu32 ", legend %" PRIu32 ", joins %" PRIu32 "\n", c.saved, c.legend, c.joins);
    return c;
}

/* The same of one side, with each record of places that is written, and the one after them. */
static void say_side(kotsghane_tray tray, uint8_t side, size_t joins, size_t places) {
    const kotsghane_place none = {9, 9, 9, 9, 9};
    kotsghane_settings settings = {1, side};
    for (size_t i = 0; i < KOTSGHANE_MAX_SLIPS; i++) {
        buffers.places[i] = none;
    }
    kotsghane_composed c = say_composed(tray, settings, joins, places);
    for (size_t i = 0; i <= c.slips; i++) {
        kotsghane_place p = buffers.places[i];
        printf(" (%u %u %u %u %u)", p.slip, p.place, p.kept, p.compared, p.side);
    }
    printf(" (%.*s)\n", (int)c.legend, (const char *)buffers.legend);
}

/* Composes a tray with as many slips and as many letters as there may be. The slips are all different, and the least overlap is such that none are joined.
 * Then the last slip is of another side than the rest: one record of places suffices for it. */
static void say_largest(void) {
    enum { SLIP = KOTSGHANE_MAX_LETTERS / KOTSGHANE_MAX_SLIPS };
    static uint8_t letters[KOTSGHANE_MAX_LETTERS], sides[KOTSGHANE_MAX_SLIPS];
    static uint16_t ends[KOTSGHANE_MAX_SLIPS];
    const kotsghane_settings apart = {KOTSGHANE_MAX_LEAST, KOTSGHANE_BLANK};
    kotsghane_tray tray = kotsghane_blank_tray(letters, KOTSGHANE_MAX_LETTERS, ends, KOTSGHANE_MAX_SLIPS);
    memset(letters, 'A', sizeof letters);
    for (uint16_t i = 0; i < KOTSGHANE_MAX_SLIPS; i++) {
        letters[SLIP * i] = (uint8_t)('A' + i / 26);
        letters[SLIP * i + 1] = (uint8_t)('A' + i % 26);
        ends[i] = (uint16_t)(SLIP * (i + 1));
    }
    say_composed(tray, apart, KOTSGHANE_MAX_SLIPS, KOTSGHANE_MAX_SLIPS);
    say_composed(tray, apart, 0, KOTSGHANE_MAX_SLIPS);
    say_composed(tray, apart, 0, KOTSGHANE_MAX_SLIPS - 1);
    memset(sides, KOTSGHANE_BLANK, sizeof sides);
    sides[KOTSGHANE_MAX_SLIPS - 1] = KOTSGHANE_REVERSE;
    tray.sides = sides;
    say_side(tray, KOTSGHANE_REVERSE, 0, 1);
    say_composed(tray, apart, 0, KOTSGHANE_MAX_SLIPS - 1);
    say_composed(tray, apart, 0, KOTSGHANE_MAX_SLIPS - 2);
}

/* Finds ANNA and AN in ANNANNA, in a list of `room` records. */
static void say_found(size_t room) {
    static const uint16_t ends[] = {4, 6};
    kotsghane_tray tray = kotsghane_blank_tray((const uint8_t *)"ANNAAN", 6, ends, 2);
    kotsghane_occurrence found[5] = {{9, 9}, {9, 9}, {9, 9}, {9, 9}, {9, 9}};
    kotsghane_found search = kotsghane_find_slips(tray, (const uint8_t *)"ANNANNA", 7, kotsghane_lend(&buffers), found, room);
    printf("found %" PRIu32 " %" PRIu32 ", %" PRIu32 " moves, %" PRIu32 ":", search.number, search.detail, search.moves, search.count);
    for (size_t i = 0; i < 5; i++) {
        printf(" (%" PRIu32 ", %" PRIu32 ")", found[i].end, found[i].slip);
    }
    printf("\n");
}

/* Composes each side of AB, O ABC, R AVG, O BA with just the joins and places that it needs, and with one place less; then sides of trays without such slips,
 * for which nothing need be lent. */
static void say_sides(kotsghane_tray blank) {
    static const uint16_t ends[] = {2, 5, 8, 10};
    static const uint8_t sides[] = {KOTSGHANE_BLANK, KOTSGHANE_OBVERSE, KOTSGHANE_REVERSE, KOTSGHANE_OBVERSE};
    kotsghane_tray tray = {(const uint8_t *)"ABABCAVGBA", 10, ends, 4, sides, 4}, empty = {NULL, 0, NULL, 0, NULL, 0};
    say_side(tray, KOTSGHANE_BLANK, 0, 1);
    say_side(tray, KOTSGHANE_OBVERSE, 1, 2);
    say_side(tray, KOTSGHANE_REVERSE, 0, 1);
    say_side(tray, KOTSGHANE_BLANK, 0, 0);
    say_side(tray, KOTSGHANE_OBVERSE, 1, 1);
    say_side(blank, KOTSGHANE_OBVERSE, 0, 0);
    say_side(empty, KOTSGHANE_BLANK, 0, 0);
    say_side(empty, KOTSGHANE_REVERSE, 0, 0);
    say_side(empty, 0, 0, 0);
}

/* Prints which bytes are accepted as the side of a slip, and which as the side named. */
static void say_accepted(void) {
    static const uint16_t ends[] = {3};
    kotsghane_tray tray = kotsghane_blank_tray((const uint8_t *)"AVG", 3, ends, 1);
    printf("sides named:");
    for (unsigned byte = 0; byte < 256; byte++) {
        kotsghane_settings settings = {1, (uint8_t)byte};
        if (kotsghane_compose_tray(tray, settings, kotsghane_lend(&buffers)).number != KOTSGHANE_REFUSED_BAD_SIDE) {
            printf(" %u", byte);
        }
    }
    printf(", of a slip:");
    for (unsigned byte = 0; byte < 256; byte++) {
        uint8_t side = (uint8_t)byte;
        tray.sides = &side;
        if (kotsghane_compose_tray(tray, usual, kotsghane_lend(&buffers)).number != KOTSGHANE_REFUSED_BAD_SIDE) {
            printf(" %u", byte);
        }
    }
    printf("\n");
}

/* Prints what refuses the letters of one slip with these sides, in each call that takes sides: composing with this least overlap and this many cells, the
 * shortest legend, a pair of slips that are not there, and merging with the slip AVG, as the first tray and as the second. */
static void say_refused(const char *letters, const char *sides, uint32_t least, size_t cells) {
    static const uint16_t end[] = {3};
    const uint16_t ends[] = {(uint16_t)strlen(letters)};
    kotsghane_settings settings = {least, KOTSGHANE_BLANK};
    kotsghane_tray tray = {(const uint8_t *)letters, ends[0], ends, 1, (const uint8_t *)sides, strlen(sides)};
    kotsghane_tray other = kotsghane_blank_tray((const uint8_t *)"AVG", 3, end, 1);
    kotsghane_lent lent = kotsghane_lend(&buffers);
    lent.work_len = cells;
    kotsghane_composed composed = kotsghane_compose_tray(tray, settings, lent);
    kotsghane_laid laid = kotsghane_shortest_legend(tray, settings, lent);
    kotsghane_overlap pair = kotsghane_pair_overlap(tray, 0, 0, least);
    kotsghane_written first = kotsghane_merge_trays(tray, other, kotsghane_lend_tray(&tray_buffers));
    kotsghane_written second = kotsghane_merge_trays(other, tray, kotsghane_lend_tray(&tray_buffers));
    printf("%s (%s): %" PRIu32 " %" PRIu32 ", %" PRIu32 " %" PRIu32, letters, sides, composed.number, composed.detail, laid.number, laid.detail);
    printf(", %" PRIu32 " %" PRIu32 ", %" PRIu32 " %" PRIu32, pair.number, pair.detail, first.number, first.detail);
    printf(", %" PRIu32 " %" PRIu32 "\n", second.number, second.detail);
}

/* Seeks the shortest legend of each side of A, B and so on, eleven slips of the obverse and one of the reverse. */
static void say_kept(void) {
    enum { MANY = KOTSGHANE_MAX_SHORTEST + 1, ALL };
    static uint16_t ends[ALL];
    static uint8_t sides[ALL];
    const kotsghane_settings of_many = {1, KOTSGHANE_OBVERSE}, of_one = {1, KOTSGHANE_REVERSE};
    kotsghane_tray tray = {(const uint8_t *)"ABCDEFGHIJKL", ALL, ends, ALL, sides, ALL};
    for (uint16_t i = 0; i < ALL; i++) {
        ends[i] = (uint16_t)(i + 1);
        sides[i] = i < MANY ? KOTSGHANE_OBVERSE : KOTSGHANE_REVERSE;
    }
    kotsghane_laid many = kotsghane_shortest_legend(tray, of_many, kotsghane_lend(&buffers));
    kotsghane_laid one = kotsghane_shortest_legend(tray, of_one, kotsghane_lend(&buffers));
    printf("kept: %" PRIu32 " %" PRIu32 ", %" PRIu32, many.number, many.detail, many.count);
    printf("; %" PRIu32 " %" PRIu32 ", %" PRIu32 ": %" PRIu32 " %" PRIu32 "\n", one.number, one.detail, one.count, one.order[0], one.order[1]);
}

/* Reads a file of one line with this many sides lent, and prints what is lent then. */
static void say_read(size_t room) {
    kotsghane_lent_tray lent = kotsghane_lend_tray(&tray_buffers);
    memset(&tray_buffers, '-', sizeof tray_buffers);
    lent.sides_len = room;
    kotsghane_written written = kotsghane_read_tray_file((const uint8_t *)"   1   2Rvj\n", 12, lent);
    printf("read %" PRIu32 " %" PRIu32 ": %u, ", written.number, written.detail, (unsigned)written.tray.sides_len);
    printf("%.3s %.2s, end %u\n", (const char *)lent.letters, (const char *)lent.sides, lent.ends[0]);
}

int main(void) {
    static const uint16_t ends[] = {7, 10, 17, 23, 27};
    kotsghane_tray five = kotsghane_blank_tray((const uint8_t *)"IMPCAESAESCAESAVGVGPIVSSIMP", 27, ends, 5);
    printf("version %s, %d.%d.%d\n", KOTSGHANE_VERSION, KOTSGHANE_VERSION_MAJOR, KOTSGHANE_VERSION_MINOR, KOTSGHANE_VERSION_PATCH);
    say_refusals();
    say_slips(10);
    say_slips(3);
    say_slips(11);
    say_composed(five, usual, 3, 5);
    say_composed(five, usual, 2, 5);
    say_largest();
    say_found(4);
    say_found(3);
    say_sides(five);
    say_accepted();
    say_refused("AVG", "O", 1, KOTSGHANE_WORK);
    say_refused("AVG", "o", 1, KOTSGHANE_WORK);
    say_refused("AVG", "", 1, KOTSGHANE_WORK);
    say_refused("AVG", "OO", 1, KOTSGHANE_WORK);
    say_refused("avg", "o", 1, KOTSGHANE_WORK);
    say_refused("AVG", "o", 0, KOTSGHANE_WORK);
    say_refused("AVG", "o", 1, KOTSGHANE_WORK - 1);
    say_refused("AVG", "R", 1, KOTSGHANE_WORK - 1);
    say_kept();
    say_read(KOTSGHANE_FILE_ENDS);
    say_read(KOTSGHANE_FILE_ENDS - 1);
    return 0;
}
