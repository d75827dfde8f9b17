/* The calls of kotsghane.h with structs: trays, lists, buffers and answers have named fields, so that nobody counts indices. Include this file alone: it
 * includes kotsghane.h, and what that says of trays, letters, sides, the least overlap and what is lent holds here too. All functions are inline: there is
 * nothing more to link. They do not allocate, and have no state.
 *
 * The functions are kotsghane_read_tray_file, kotsghane_compose_tray, kotsghane_shortest_legend, kotsghane_find_slips, kotsghane_slip_span,
 * kotsghane_pair_overlap and kotsghane_merge_trays, one for each call. Each returns a struct, in which `number` is KOTSGHANE_ACCEPTED or, if the call is
 * refused, one of KOTSGHANE_REFUSED_...; then `detail` is the detail of the refusal, and all counts are 0. kotsghane_refusal_text puts a number into words, and
 * kotsghane_detail_text what its detail is. kotsghane_slip_letters gives the letters of one slip. kotsghane_blank_tray makes a tray for callers who know no
 * sides.
 *
 * Buffers are lent as a struct of pointers and lengths. The easy way is to declare a kotsghane_buffers, whose arrays are large enough for any tray, and to lend
 * all of it:
 *
 *     static uint8_t file[KOTSGHANE_MAX_FILE + 1];
 *     static kotsghane_tray_buffers tray_buffers;
 *     static kotsghane_buffers buffers;
 *
 *     size_t bytes = fread(file, 1, sizeof file, stdin);
 *     if (ferror(stdin)) ...
 *     kotsghane_written written = kotsghane_read_tray_file(file, bytes, kotsghane_lend_tray(&tray_buffers));
 *     if (written.number != KOTSGHANE_ACCEPTED) ...
 *     kotsghane_settings settings = {1, KOTSGHANE_BLANK};
 *     kotsghane_composed composed = kotsghane_compose_tray(written.tray, settings, kotsghane_lend(&buffers));
 *     if (composed.number != KOTSGHANE_ACCEPTED) puts(kotsghane_refusal_text(composed.number)), ...
 *     printf("%.*s\n", (int)composed.legend, (const char *)buffers.legend);
 *
 * The legend is the first composed.legend letters of buffers.legend, without a 0 after them; the joins are the first composed.joins records of
 * buffers.joins; and buffers.places has composed.slips records, one for each slip of the side, each with the number of its slip. These settings compose the
 * slips whose side is blank: compose a tray that has slips of other sides once for each side. To lend less, or buffers of your own, fill in a kotsghane_lent
 * and a kotsghane_lent_tray.
 */
#ifndef KOTSGHANE_STRUCTS_H
#define KOTSGHANE_STRUCTS_H

#include "kotsghane.h"

#ifdef __cplusplus
extern "C" {
#endif

/* A tray. Calls only read it. */
typedef struct kotsghane_tray {
    const uint8_t *letters; /* of all slips, one after another */
    size_t letters_len;
    const uint16_t *ends; /* for each slip, the index after its last letter */
    size_t ends_len;      /* how many slips there are */
    const uint8_t *sides; /* for each slip, KOTSGHANE_BLANK, KOTSGHANE_OBVERSE or KOTSGHANE_REVERSE */
    size_t sides_len;     /* as many as slips: with another number the tray is refused by 22, where its sides are asked for */
} kotsghane_tray;

/* The tray of these letters and ends, all its slips blank. */
static inline kotsghane_tray kotsghane_blank_tray(const uint8_t *letters, size_t letters_len, const uint16_t *ends, size_t ends_len) {
    /* As many blanks as a tray may have slips, and the 0 that ends a string. With more slips the tray is refused by 1, before its sides are looked at. */
    static const uint8_t blanks[KOTSGHANE_MAX_SLIPS + 1] = "                                                  "
                                                           "                                                  "
                                                           "                                                  "
                                                           "                                                  ";
    const size_t most = sizeof blanks - 1;
    kotsghane_tray tray;
    tray.letters = letters;
    tray.letters_len = letters_len;
    tray.ends = ends;
    tray.ends_len = ends_len;
    tray.sides = blanks;
    tray.sides_len = ends_len < most ? ends_len : most;
    return tray;
}

/* What the person composing sets. */
typedef struct kotsghane_settings {
    uint32_t least; /* the least overlap, from 1 to KOTSGHANE_MAX_LEAST letters: a shorter one counts as empty */
    uint8_t side;   /* whose slips are composed: KOTSGHANE_BLANK, KOTSGHANE_OBVERSE or KOTSGHANE_REVERSE */
} kotsghane_settings;

/* Some letters, not followed by a 0. In a tray that was read from a file, a byte that is no letter is a 0 among them. */
typedef struct kotsghane_letters {
    const uint8_t *letters;
    size_t letters_len;
} kotsghane_letters;

/* Two slips joined: the right one is laid after the left one and shares `overlap` letters with it. */
typedef struct kotsghane_join {
    uint16_t left;
    uint16_t right;
    uint16_t overlap;
} kotsghane_join;

/* Where a slip stands in the legend of its side. */
typedef struct kotsghane_place {
    uint16_t slip;     /* its number in the tray, from 1 */
    uint16_t place;    /* of its first letter, from 1: where a kept slip was laid, or the first place at which one set aside stands */
    uint16_t kept;     /* 1, or 0 if the slip is set aside */
    uint16_t compared; /* letters compared to find the place, 0 if the slip is kept */
    uint16_t side;     /* KOTSGHANE_BLANK, KOTSGHANE_OBVERSE or KOTSGHANE_REVERSE: the side that was composed */
} kotsghane_place;

/* A slip found in a text. */
typedef struct kotsghane_occurrence {
    uint32_t end; /* the place of its last letter in the text, from 1 */
    uint32_t slip;
} kotsghane_occurrence;

/* The archive writes a list as numbers, one after another. So a record must be its numbers and nothing else: if it is not, its line here does not compile. */
typedef char kotsghane_join_has_no_gap[sizeof(kotsghane_join) == KOTSGHANE_JOIN * sizeof(uint16_t) ? 1 : -1];
typedef char kotsghane_place_has_no_gap[sizeof(kotsghane_place) == KOTSGHANE_PLACE * sizeof(uint16_t) ? 1 : -1];
typedef char kotsghane_occurrence_has_no_gap[sizeof(kotsghane_occurrence) == KOTSGHANE_OCCURRENCE * sizeof(uint32_t) ? 1 : -1];

/* What is lent for composing, for the shortest legend (work and legend) and for finding (work). Lengths count elements: cells, letters, records. */
typedef struct kotsghane_lent {
    uint16_t *work;
    size_t work_len;
    uint8_t *legend;
    size_t legend_len;
    kotsghane_join *joins;
    size_t joins_len;
    kotsghane_place *places;
    size_t places_len;
} kotsghane_lent;

/* Enough of each for any tray: 7, 8 and 9 cannot occur. The work area is large, so keep this static or on the heap rather than on a small stack. */
typedef struct kotsghane_buffers {
    uint16_t work[KOTSGHANE_WORK];
    uint8_t legend[KOTSGHANE_MAX_LETTERS];
    kotsghane_join joins[KOTSGHANE_MAX_SLIPS];
    kotsghane_place places[KOTSGHANE_MAX_SLIPS];
} kotsghane_buffers;

/* All of these buffers, lent. */
static inline kotsghane_lent kotsghane_lend(kotsghane_buffers *buffers) {
    kotsghane_lent lent;
    lent.work = buffers->work;
    lent.work_len = KOTSGHANE_WORK;
    lent.legend = buffers->legend;
    lent.legend_len = KOTSGHANE_MAX_LETTERS;
    lent.joins = buffers->joins;
    lent.joins_len = KOTSGHANE_MAX_SLIPS;
    lent.places = buffers->places;
    lent.places_len = KOTSGHANE_MAX_SLIPS;
    return lent;
}

/* What is lent for a tray that is read or merged. */
typedef struct kotsghane_lent_tray {
    uint8_t *letters;
    size_t letters_len;
    uint16_t *ends;
    size_t ends_len;
    uint8_t *sides;
    size_t sides_len;
} kotsghane_lent_tray;

/* Enough for any tray file, and so for any two trays merged: 15 cannot occur. */
typedef struct kotsghane_tray_buffers {
    uint8_t letters[KOTSGHANE_MAX_FILE];
    uint16_t ends[KOTSGHANE_FILE_ENDS];
    uint8_t sides[KOTSGHANE_FILE_ENDS];
} kotsghane_tray_buffers;

/* All of these buffers, lent. */
static inline kotsghane_lent_tray kotsghane_lend_tray(kotsghane_tray_buffers *buffers) {
    kotsghane_lent_tray lent;
    lent.letters = buffers->letters;
    lent.letters_len = KOTSGHANE_MAX_FILE;
    lent.ends = buffers->ends;
    lent.ends_len = KOTSGHANE_FILE_ENDS;
    lent.sides = buffers->sides;
    lent.sides_len = KOTSGHANE_FILE_ENDS;
    return lent;
}

/* The answer of kotsghane_compose_tray. */
typedef struct kotsghane_composed {
    uint32_t number;
    uint32_t detail;
    uint32_t slips;        /* slips of the side, and so records of places */
    uint32_t kept;         /* slips that are kept */
    uint32_t kept_letters; /* letters of the kept slips: those of the legend and those saved */
    uint32_t saved;        /* letters saved by overlaps */
    uint32_t legend;       /* letters of the legend */
    uint32_t joins;        /* joins, in the order made */
} kotsghane_composed;

/* Composes the side of a tray that the settings name, as kotsghane_compose does. */
static inline kotsghane_composed kotsghane_compose_tray(kotsghane_tray tray, kotsghane_settings settings, kotsghane_lent lent) {
    uint32_t answer[KOTSGHANE_COMPOSED_NUMBERS];
    kotsghane_composed composed;
    kotsghane_compose(tray.letters, tray.letters_len, tray.ends, tray.ends_len, tray.sides, tray.sides_len, settings.least, settings.side, lent.work,
                      lent.work_len, lent.legend, lent.legend_len, (uint16_t *)(void *)lent.joins, KOTSGHANE_JOIN * lent.joins_len,
                      (uint16_t *)(void *)lent.places, KOTSGHANE_PLACE * lent.places_len, answer);
    composed.number = answer[KOTSGHANE_NUMBER];
    composed.detail = answer[KOTSGHANE_DETAIL];
    composed.slips = answer[KOTSGHANE_COMPOSED_SLIPS];
    composed.kept = answer[KOTSGHANE_COMPOSED_KEPT];
    composed.kept_letters = answer[KOTSGHANE_COMPOSED_KEPT_LETTERS];
    composed.saved = answer[KOTSGHANE_COMPOSED_SAVED];
    composed.legend = answer[KOTSGHANE_COMPOSED_LEGEND];
    composed.joins = answer[KOTSGHANE_COMPOSED_JOINS];
    return composed;
}

/* The answer of kotsghane_shortest_legend. */
typedef struct kotsghane_laid {
    uint32_t number;
    uint32_t detail;
    uint32_t legend;                        /* letters of the legend */
    uint32_t count;                         /* slips of the side that are kept */
    uint32_t order[KOTSGHANE_MAX_SHORTEST]; /* the kept slips in the order in which they are laid, 0 past the count */
} kotsghane_laid;

/* The shortest legend of few kept slips of the side that the settings name, as kotsghane_shortest has it. */
static inline kotsghane_laid kotsghane_shortest_legend(kotsghane_tray tray, kotsghane_settings settings, kotsghane_lent lent) {
    uint32_t answer[KOTSGHANE_SHORTEST_NUMBERS];
    kotsghane_laid laid;
    kotsghane_shortest(tray.letters, tray.letters_len, tray.ends, tray.ends_len, tray.sides, tray.sides_len, settings.least, settings.side, lent.work,
                       lent.work_len, lent.legend, lent.legend_len, answer);
    laid.number = answer[KOTSGHANE_NUMBER];
    laid.detail = answer[KOTSGHANE_DETAIL];
    laid.legend = answer[KOTSGHANE_SHORTEST_LEGEND];
    laid.count = answer[KOTSGHANE_SHORTEST_COUNT];
    for (size_t i = 0; i < KOTSGHANE_MAX_SHORTEST; i++) {
        laid.order[i] = answer[KOTSGHANE_SHORTEST_ORDER + i];
    }
    return laid;
}

/* The answer of kotsghane_find_slips. */
typedef struct kotsghane_found {
    uint32_t number;
    uint32_t detail;
    uint32_t moves; /* moves of the automaton over the text */
    uint32_t count; /* occurrences */
} kotsghane_found;

/* Finds the slips of a tray in a text, those of all sides, as kotsghane_find does; `found` takes `found_len` records. Of what is lent, only the work area is
 * used: the text may be the legend that was composed with the same buffers. */
static inline kotsghane_found kotsghane_find_slips(kotsghane_tray tray, const uint8_t *text, size_t text_len, kotsghane_lent lent,
                                                   kotsghane_occurrence *found, size_t found_len) {
    uint32_t answer[KOTSGHANE_FOUND_NUMBERS];
    kotsghane_found search;
    kotsghane_find(tray.letters, tray.letters_len, tray.ends, tray.ends_len, text, text_len, lent.work, lent.work_len, (uint32_t *)(void *)found,
                   KOTSGHANE_OCCURRENCE * found_len, answer);
    search.number = answer[KOTSGHANE_NUMBER];
    search.detail = answer[KOTSGHANE_DETAIL];
    search.moves = answer[KOTSGHANE_FOUND_MOVES];
    search.count = answer[KOTSGHANE_FOUND_COUNT];
    return search;
}

/* The answer of kotsghane_slip_span. */
typedef struct kotsghane_span {
    uint32_t number;
    uint32_t detail;
    uint32_t start; /* index of the first letter of the slip in those of the tray */
    uint32_t end;   /* index after its last letter */
} kotsghane_span;

/* Where one slip, from 1, stands in the letters of the tray, as kotsghane_slip has it, which checks the whole tray. */
static inline kotsghane_span kotsghane_slip_span(kotsghane_tray tray, uint32_t slip) {
    uint32_t answer[KOTSGHANE_SLIP_NUMBERS];
    kotsghane_span span;
    kotsghane_slip(tray.letters, tray.letters_len, tray.ends, tray.ends_len, slip, answer);
    span.number = answer[KOTSGHANE_NUMBER];
    span.detail = answer[KOTSGHANE_DETAIL];
    span.start = answer[KOTSGHANE_SLIP_START];
    span.end = answer[KOTSGHANE_SLIP_END];
    return span;
}

/* The letters of one slip, from 1, of any tray: of one that was refused too, say to show the slip that a refusal names. The tray is not checked: there are no
 * letters where it has no such slip, or where its ends do not fit. */
static inline kotsghane_letters kotsghane_slip_letters(kotsghane_tray tray, uint32_t slip) {
    kotsghane_letters letters = {tray.letters, 0};
    if (slip >= 1 && slip <= tray.ends_len) {
        size_t start = slip == 1 ? 0 : tray.ends[slip - 2], end = tray.ends[slip - 1];
        if (start <= end && end <= tray.letters_len) {
            letters.letters = tray.letters + start;
            letters.letters_len = end - start;
        }
    }
    return letters;
}

/* The answer of kotsghane_pair_overlap. */
typedef struct kotsghane_overlap {
    uint32_t number;
    uint32_t detail;
    uint32_t overlap; /* letters that end the left slip and begin the right one */
} kotsghane_overlap;

/* The overlap of two slips, from 1, as kotsghane_pair has it: 0 where their sides differ. */
static inline kotsghane_overlap kotsghane_pair_overlap(kotsghane_tray tray, uint32_t left, uint32_t right, uint32_t least) {
    uint32_t answer[KOTSGHANE_PAIR_NUMBERS];
    kotsghane_overlap pair;
    kotsghane_pair(tray.letters, tray.letters_len, tray.ends, tray.ends_len, tray.sides, tray.sides_len, left, right, least, answer);
    pair.number = answer[KOTSGHANE_NUMBER];
    pair.detail = answer[KOTSGHANE_DETAIL];
    pair.overlap = answer[KOTSGHANE_PAIR_OVERLAP];
    return pair;
}

/* The answer of the two calls that write a tray. */
typedef struct kotsghane_written {
    uint32_t number;
    uint32_t detail;
    kotsghane_tray tray; /* in the buffers that were lent, and as lasting as they are; empty if refused */
} kotsghane_written;

/* Reads the bytes of a tray file, as kotsghane_read_tray does. The tray itself is judged by the other calls. */
static inline kotsghane_written kotsghane_read_tray_file(const uint8_t *file, size_t file_len, kotsghane_lent_tray lent) {
    uint32_t answer[KOTSGHANE_READ_NUMBERS];
    kotsghane_written written;
    kotsghane_read_tray(file, file_len, lent.letters, lent.letters_len, lent.ends, lent.ends_len, lent.sides, lent.sides_len, answer);
    written.number = answer[KOTSGHANE_NUMBER];
    written.detail = answer[KOTSGHANE_DETAIL];
    written.tray.letters = lent.letters;
    written.tray.letters_len = answer[KOTSGHANE_READ_LETTERS];
    written.tray.ends = lent.ends;
    written.tray.ends_len = answer[KOTSGHANE_READ_SLIPS];
    written.tray.sides = lent.sides;
    written.tray.sides_len = answer[KOTSGHANE_READ_SLIPS];
    return written;
}

/* Merges two trays, as kotsghane_merge does. Neither may stand in the buffers that are lent. */
static inline kotsghane_written kotsghane_merge_trays(kotsghane_tray first, kotsghane_tray second, kotsghane_lent_tray lent) {
    uint32_t answer[KOTSGHANE_MERGED_NUMBERS];
    kotsghane_written written;
    kotsghane_merge(first.letters, first.letters_len, first.ends, first.ends_len, first.sides, first.sides_len, second.letters, second.letters_len,
                    second.ends, second.ends_len, second.sides, second.sides_len, lent.letters, lent.letters_len, lent.ends, lent.ends_len,
                    lent.sides, lent.sides_len, answer);
    written.number = answer[KOTSGHANE_NUMBER];
    written.detail = answer[KOTSGHANE_DETAIL];
    written.tray.letters = lent.letters;
    written.tray.letters_len = answer[KOTSGHANE_MERGED_LETTERS];
    written.tray.ends = lent.ends;
    written.tray.ends_len = answer[KOTSGHANE_MERGED_SLIPS];
    written.tray.sides = lent.sides;
    written.tray.sides_len = answer[KOTSGHANE_MERGED_SLIPS];
    return written;
}

/* A refusal in words. Never null: any other number has words too. */
static inline const char *kotsghane_refusal_text(uint32_t number) {
    switch (number) {
    case KOTSGHANE_ACCEPTED: return "accepted";
    case KOTSGHANE_REFUSED_TOO_MANY_SLIPS: return "the tray has too many slips";
    case KOTSGHANE_REFUSED_EMPTY_SLIP: return "a slip has no letters";
    case KOTSGHANE_REFUSED_SLIP_TOO_LONG: return "a slip has too many letters";
    case KOTSGHANE_REFUSED_TOO_MANY_LETTERS: return "the tray has too many letters";
    case KOTSGHANE_REFUSED_LAST_END_MISMATCH: return "the last end is not the count of letters";
    case KOTSGHANE_REFUSED_BAD_SLIP_BYTE: return "a slip has a byte that is neither A to Z nor the full stop";
    case KOTSGHANE_REFUSED_WORK_AREA_TOO_SMALL: return "the work area is too small";
    case KOTSGHANE_REFUSED_LEGEND_BUFFER_TOO_SMALL: return "the legend is longer than its buffer";
    case KOTSGHANE_REFUSED_JOIN_OR_PLACE_LIST_TOO_SMALL: return "the list of joins or that of places is too small";
    case KOTSGHANE_REFUSED_NO_SUCH_SLIP: return "the tray has no slip with this number";
    case KOTSGHANE_REFUSED_SAME_SLIP_TWICE: return "the pair is one slip with itself";
    case KOTSGHANE_REFUSED_TEXT_TOO_LONG: return "the text is too long";
    case KOTSGHANE_REFUSED_BAD_TEXT_BYTE: return "the text has a byte that is neither A to Z nor the full stop";
    case KOTSGHANE_REFUSED_FOUND_LIST_TOO_SMALL: return "the list of occurrences is too small";
    case KOTSGHANE_REFUSED_TRAY_BUFFERS_TOO_SMALL: return "the letters, ends or sides lent for a tray are too few";
    case KOTSGHANE_REFUSED_FILE_TOO_LONG: return "the tray file is too long";
    case KOTSGHANE_REFUSED_BAD_LINE: return "a line of the tray file is not laid out as it must be";
    case KOTSGHANE_REFUSED_WRONG_SLIP_NUMBER: return "the slip number on a line of the tray file is not the number of the line";
    case KOTSGHANE_REFUSED_WRONG_LENGTH: return "the length on a line of the tray file is not the count of its letters";
    case KOTSGHANE_REFUSED_TOO_MANY_KEPT_SLIPS: return "too many slips of the side are kept for the shortest legend to be sought";
    case KOTSGHANE_REFUSED_LEAST_OVERLAP_OUT_OF_RANGE: return "the least overlap is 0 or too large";
    case KOTSGHANE_REFUSED_BAD_SIDE: return "a side is missing, one too many or none of the three: lend a blank, O or R for each slip, and name one of these";
    default: return "not the number of a refusal";
    }
}

/* What the detail of a refusal is, in a word or two, or null if it has none. Ask this, and not whether the detail is 0: a slip number may be, and so may a
 * count of joins. */
static inline const char *kotsghane_detail_text(uint32_t number) {
    switch (number) {
    case KOTSGHANE_REFUSED_EMPTY_SLIP:
    case KOTSGHANE_REFUSED_SLIP_TOO_LONG:
    case KOTSGHANE_REFUSED_BAD_SLIP_BYTE:
    case KOTSGHANE_REFUSED_SAME_SLIP_TWICE: return "slip";
    case KOTSGHANE_REFUSED_LEGEND_BUFFER_TOO_SMALL: return "letters needed";
    case KOTSGHANE_REFUSED_JOIN_OR_PLACE_LIST_TOO_SMALL: return "joins";
    case KOTSGHANE_REFUSED_NO_SUCH_SLIP: return "slip number";
    case KOTSGHANE_REFUSED_BAD_TEXT_BYTE: return "place";
    case KOTSGHANE_REFUSED_FOUND_LIST_TOO_SMALL: return "occurrences";
    case KOTSGHANE_REFUSED_BAD_LINE:
    case KOTSGHANE_REFUSED_WRONG_SLIP_NUMBER:
    case KOTSGHANE_REFUSED_WRONG_LENGTH: return "line";
    default: return NULL;
    }
}

#ifdef __cplusplus
}
#endif

#endif
