/* Reads a tray file on standard input, composes it, finds its slips in the legend, seeks the shortest legend, and merges it with another tray: every call.
 * No overlap of the tray is too short; a tray of two slips shows what a least overlap does. Of a tray file with slips of two sides, each is composed. */
#include "kotsghane_structs.h"
#include <inttypes.h>
#include <stdio.h>

static uint8_t file[KOTSGHANE_MAX_FILE + 1];
static kotsghane_tray_buffers tray_buffers, sided_buffers, merged_buffers;
static kotsghane_buffers buffers;
static kotsghane_occurrence found[8000];

/* Prints a refusal, if there is one: by its number, and in words. */
static int refused(const char *call, uint32_t number, uint32_t detail) {
    const char *what = kotsghane_detail_text(number);
    if (number == KOTSGHANE_ACCEPTED) {
        return 0;
    }
    printf("%s: refused by %" PRIu32 ", detail %" PRIu32 "\n  %s", call, number, detail, kotsghane_refusal_text(number));
    if (what != NULL) {
        printf(": %s %" PRIu32, what, detail);
    }
    printf("\n");
    return 1;
}

/* Prints every slip that is found in a text, whatever its side. */
static void say_found(kotsghane_tray tray, const uint8_t *text, size_t length) {
    kotsghane_found search = kotsghane_find_slips(tray, text, length, kotsghane_lend(&buffers), found, sizeof found / sizeof *found);
    if (refused("find", search.number, search.detail)) {
        return;
    }
    for (uint32_t i = 0; i < search.count; i++) {
        kotsghane_letters slip = kotsghane_slip_letters(tray, found[i].slip);
        printf("slip %" PRIu32 ", %.*s, ends at %" PRIu32 "\n", found[i].slip, (int)slip.letters_len, (const char *)slip.letters, found[i].end);
    }
}

/* Prints the legend of one side of the tray, its joins, the slips set aside, and every slip that is found in the legend. */
static void say_composed(kotsghane_tray tray, uint8_t side) {
    kotsghane_settings settings = {1, side};
    kotsghane_composed composed = kotsghane_compose_tray(tray, settings, kotsghane_lend(&buffers));
    if (refused("compose", composed.number, composed.detail)) {
        return;
    }
    printf("legend %.*s, %" PRIu32 " letters saved\n", (int)composed.legend, (const char *)buffers.legend, composed.saved);
    for (uint32_t j = 0; j < composed.joins; j++) {
        kotsghane_join join = buffers.joins[j];
        kotsghane_overlap pair = kotsghane_pair_overlap(tray, join.left, join.right, settings.least);
        printf("join %u to %u by %u, overlap %" PRIu32 "\n", join.left, join.right, join.overlap, pair.overlap);
    }
    for (uint32_t i = 0; i < composed.slips; i++) {
        kotsghane_place place = buffers.places[i];
        if (!place.kept) {
            printf("slip %u is set aside and stands at %u, %u letters compared\n", place.slip, place.place, place.compared);
        }
    }
    say_found(tray, buffers.legend, composed.legend);
}

/* Prints the shortest legend of one side of the tray. */
static void say_shortest(kotsghane_tray tray, uint8_t side, kotsghane_lent lent) {
    kotsghane_settings settings = {1, side};
    kotsghane_laid laid = kotsghane_shortest_legend(tray, settings, lent);
    if (refused("shortest", laid.number, laid.detail)) {
        return;
    }
    printf("shortest legend %.*s, of slips", (int)laid.legend, (const char *)lent.legend);
    for (uint32_t i = 0; i < laid.count; i++) {
        printf(" %" PRIu32, laid.order[i]);
    }
    printf("\n");
}

/* Prints the legend of AB and BC with a least overlap. */
static void say_least(uint32_t least) {
    static const uint8_t letters[] = {'A', 'B', 'B', 'C'};
    static const uint16_t ends[] = {2, 4};
    kotsghane_tray two = kotsghane_blank_tray(letters, 4, ends, 2);
    kotsghane_settings settings = {least, KOTSGHANE_BLANK};
    kotsghane_composed composed = kotsghane_compose_tray(two, settings, kotsghane_lend(&buffers));
    kotsghane_overlap pair = kotsghane_pair_overlap(two, 1, 2, least);
    if (refused("compose", composed.number, composed.detail) || refused("pair", pair.number, pair.detail)) {
        return;
    }
    printf("least overlap %" PRIu32 ": legend %.*s, overlap %" PRIu32 "\n", least, (int)composed.legend, (const char *)buffers.legend, pair.overlap);
}

/* Merges two trays, and prints the slips, each with its side if it is not blank, and the legend of one side. */
static void say_merged(kotsghane_tray first, kotsghane_tray second, uint8_t side, kotsghane_lent_tray lent) {
    kotsghane_settings settings = {1, side};
    kotsghane_written merged = kotsghane_merge_trays(first, second, lent);
    if (refused("merge", merged.number, merged.detail)) {
        return;
    }
    printf("merged, %u letters:", (unsigned)merged.tray.letters_len);
    for (uint32_t i = 1; i <= merged.tray.ends_len; i++) {
        kotsghane_letters slip = kotsghane_slip_letters(merged.tray, i);
        if (merged.tray.sides[i - 1] != KOTSGHANE_BLANK) {
            printf(" %c", merged.tray.sides[i - 1]);
        }
        printf(" %.*s", (int)slip.letters_len, (const char *)slip.letters);
    }
    kotsghane_composed composed = kotsghane_compose_tray(merged.tray, settings, kotsghane_lend(&buffers));
    printf(", legend %.*s\n", (int)composed.legend, (const char *)buffers.legend);
}

/* Merges the tray with AES, VGP, VGP and PIVSPP, all blank; then with too few ends lent. */
static void say_campaigns(kotsghane_tray tray) {
    static const uint8_t letters[] = {'A', 'E', 'S', 'V', 'G', 'P', 'V', 'G', 'P', 'P', 'I', 'V', 'S', 'P', 'P'};
    static const uint16_t ends[] = {3, 6, 9, 15};
    kotsghane_tray more = kotsghane_blank_tray(letters, sizeof letters, ends, 4);
    kotsghane_lent_tray lent = kotsghane_lend_tray(&merged_buffers);
    say_merged(tray, more, KOTSGHANE_BLANK, lent);
    lent.ends_len = KOTSGHANE_MAX_SLIPS - 1;
    say_merged(tray, more, KOTSGHANE_BLANK, lent);
}

/* Merges a tray with R AVG, O AVG and O IMPCAES; then with too few sides lent. */
static void say_sided_campaigns(kotsghane_tray tray) {
    static const uint8_t letters[] = {'A', 'V', 'G', 'A', 'V', 'G', 'I', 'M', 'P', 'C', 'A', 'E', 'S'};
    static const uint16_t ends[] = {3, 6, 13};
    static const uint8_t sides[] = {KOTSGHANE_REVERSE, KOTSGHANE_OBVERSE, KOTSGHANE_OBVERSE};
    kotsghane_tray more = {letters, sizeof letters, ends, 3, sides, sizeof sides};
    kotsghane_lent_tray lent = kotsghane_lend_tray(&merged_buffers);
    say_merged(tray, more, KOTSGHANE_REVERSE, lent);
    lent.sides_len = KOTSGHANE_MAX_SLIPS - 1;
    say_merged(tray, more, KOTSGHANE_REVERSE, lent);
}

/* Reads a tray file with slips of two sides, and prints each side, two pairs and what is refused. */
static void say_sides(void) {
    static const char sided[] = "   1   7OIMPCAES\n"
                                "   2   6RPAXAVG\n"
                                "   3   7OCAESAVG\n"
                                "   4   7RAVGVSTI\n"
                                "   5   3Oaug\n";
    static const uint8_t sides[] = {KOTSGHANE_OBVERSE, KOTSGHANE_REVERSE};
    kotsghane_written written = kotsghane_read_tray_file((const uint8_t *)sided, sizeof sided - 1, kotsghane_lend_tray(&sided_buffers));
    kotsghane_tray tray = written.tray;
    if (refused("read", written.number, written.detail)) {
        return;
    }
    for (size_t i = 0; i < sizeof sides; i++) {
        printf("side %c: ", sides[i]);
        say_composed(tray, sides[i]);
        say_shortest(tray, sides[i], kotsghane_lend(&buffers));
    }
    printf("overlap of 2 and 4 %" PRIu32, kotsghane_pair_overlap(tray, 2, 4, 1).overlap);
    printf(", of 3 and 4, which are of different sides, %" PRIu32 "\n", kotsghane_pair_overlap(tray, 3, 4, 1).overlap);
    say_sided_campaigns(tray);
    say_composed(tray, 'o');
    tray.sides_len--;
    say_composed(tray, KOTSGHANE_OBVERSE);
    written = kotsghane_read_tray_file((const uint8_t *)"   1   3oAVG\n", 13, kotsghane_lend_tray(&sided_buffers));
    refused("read", written.number, written.detail);
}

int main(void) {
    kotsghane_lent lent = kotsghane_lend(&buffers);
    size_t bytes = fread(file, 1, sizeof file, stdin);
    kotsghane_written written = kotsghane_read_tray_file(file, bytes, kotsghane_lend_tray(&tray_buffers));
    kotsghane_tray tray = written.tray;
    if (refused("read", written.number, written.detail)) {
        return 1;
    }
    say_composed(tray, KOTSGHANE_BLANK);
    say_shortest(tray, KOTSGHANE_BLANK, lent);
    lent.legend_len = 0;
    say_shortest(tray, KOTSGHANE_BLANK, lent);
    say_least(1);
    say_least(2);
    say_least(KOTSGHANE_MAX_LEAST + 1);
    say_campaigns(tray);
    uint32_t pair[KOTSGHANE_PAIR_NUMBERS]; /* a call without structs */
    kotsghane_pair(tray.letters, tray.letters_len, tray.ends, tray.ends_len, tray.sides, tray.sides_len, 1, 1, 1, pair);
    refused("pair", pair[KOTSGHANE_NUMBER], pair[KOTSGHANE_DETAIL]);
    kotsghane_span span = kotsghane_slip_span(tray, 0);
    refused("slip", span.number, span.detail);
    say_sides();
    return 0;
}
