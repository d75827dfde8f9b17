/* Coin legends composed from worn readings: the calls of the proved library, for C and C++.
 *
 * `rt lib` in the folder crates/kotsghane writes out/libkotsghane.a there, for x86-64 programs; link it. This file declares what the archive has: functions
 * over pointers, lengths and numbers (but two on the index of beginnings, which callers in C do not have yet). kotsghane_structs.h has the same calls with
 * structs; most callers will want that one.
 *
 * A tray is letters, ends and sides: slip 1 is letters[0] up to, but not including, letters[ends[0]], and each later slip i begins where the one before
 * ends, at letters[ends[i - 2]], and ends before letters[ends[i - 1]]. Slips are numbered from 1. A letter is a capital A to Z or the full stop. The side of
 * slip i is sides[i - 1]: KOTSGHANE_BLANK, KOTSGHANE_OBVERSE or KOTSGHANE_REVERSE. A slip is set aside if its letters stand in a longer slip of its side, or
 * equal those of a slip of its side with a lower number; the others are kept. The overlap of two slips of one side is the longest string that ends the left
 * one and begins the right one; if that is full stops alone, it counts as empty. Slips of different sides do not overlap.
 *
 * Every call takes any bytes, any ends, any sides and any lengths; what cannot be done is refused, by a number and a detail in the answer. docs/REFUSALS.md
 * says what to do about each. A refusal leaves every lent buffer as it was; only the work area may differ, and only after 8, 9, 14 and 20. On success the first
 * part of each buffer is the outcome, and the rest is unchanged; what is left in the work area means nothing.
 *
 * Three calls take the least overlap, from 1 to KOTSGHANE_MAX_LEAST: a shorter overlap counts as empty. With 1 none is too short. Any other number is
 * refused by 21, which is reported first, before any fault of the tray. Which slips are kept, what is found and what is read do not depend on it.
 *
 * Two calls take a side: kotsghane_compose and kotsghane_shortest look at the slips of that side alone, as if the tray had no others, and tell them by the
 * numbers that they have in the tray. A side without slips has an empty legend. The sides of a tray are one for each slip: where none is known, lend
 * KOTSGHANE_BLANK for each, and name it. Sides of another number or value are refused by 22, which is reported after all faults of letters and ends.
 *
 * Each pointer comes with a length in elements and must point to that many; one with length 0 is never dereferenced. What is lent for writing must not
 * overlap anything else that is lent. No call keeps a pointer, allocates, or unwinds. There is no state between calls, so threads may call at the same time,
 * each with buffers of its own.
 */
#ifndef KOTSGHANE_H
#define KOTSGHANE_H

#include <stddef.h>
#include <stdint.h>

/* The version, which is that of the Rust crate too. As long as it begins with 0, a change that callers must follow raises the second number. */
#define KOTSGHANE_VERSION_MAJOR 0
#define KOTSGHANE_VERSION_MINOR 2
#define KOTSGHANE_VERSION_PATCH 0
#define KOTSGHANE_VERSION "0.2.0"

#ifdef __cplusplus
extern "C" {
#endif

/* The sides of a slip, as column 9 of a tray file has them. */
enum {
    KOTSGHANE_BLANK = 32,   /* a blank */
    KOTSGHANE_OBVERSE = 79, /* the letter O */
    KOTSGHANE_REVERSE = 82  /* the letter R */
};

/* Limits, and how much must be lent, each with the number that refuses what is beyond it. */
enum {
    KOTSGHANE_MAX_SLIPS = 200,     /* slips of a tray (1), and ends, and sides, to lend for two trays merged (15) */
    KOTSGHANE_MAX_SLIP = 32,       /* letters of a slip (3) */
    KOTSGHANE_MAX_LETTERS = 2000,  /* letters of a tray (4), and so of a legend; and letters to lend for two trays merged (15) */
    KOTSGHANE_MAX_TEXT = 2000,     /* letters of a text (12) */
    KOTSGHANE_WORK = 32000,        /* cells of the work area (7) */
    KOTSGHANE_MAX_FILE = 16384,    /* bytes of a tray file (16), and letters to lend for one (15) */
    KOTSGHANE_FILE_ENDS = 1700,    /* ends, and sides, to lend for a tray file (15) */
    KOTSGHANE_MAX_SHORTEST = 10,   /* kept slips of one side of which the shortest legend is sought (20) */
    KOTSGHANE_MAX_LEAST = 32       /* letters that a least overlap may ask for (21) */
};

/* The number of a refusal says which condition holds. Where several do, one is reported: docs/REFUSALS.md has their order. The detail is 0 where none is named
 * here; a slip is the lowest at fault, a line or a place the first. */
enum kotsghane_refusal {
    KOTSGHANE_ACCEPTED = 0,                             /* not refused */
    KOTSGHANE_REFUSED_TOO_MANY_SLIPS = 1,               /* the tray has more than KOTSGHANE_MAX_SLIPS slips */
    KOTSGHANE_REFUSED_EMPTY_SLIP = 2,                   /* a slip has no letters: its end is not above the one before (0 before the first). Detail: slip */
    KOTSGHANE_REFUSED_SLIP_TOO_LONG = 3,                /* a slip has more than KOTSGHANE_MAX_SLIP letters. Detail: the slip */
    KOTSGHANE_REFUSED_TOO_MANY_LETTERS = 4,             /* the tray has more than KOTSGHANE_MAX_LETTERS letters */
    KOTSGHANE_REFUSED_LAST_END_MISMATCH = 5,            /* the last end, 0 if there is none, is not the count of letters */
    KOTSGHANE_REFUSED_BAD_SLIP_BYTE = 6,                /* a byte is neither A to Z nor the full stop. Detail: the slip */
    KOTSGHANE_REFUSED_WORK_AREA_TOO_SMALL = 7,          /* fewer than KOTSGHANE_WORK cells are lent */
    KOTSGHANE_REFUSED_LEGEND_BUFFER_TOO_SMALL = 8,      /* the legend is longer than its buffer. Detail: how many letters the legend has */
    KOTSGHANE_REFUSED_JOIN_OR_PLACE_LIST_TOO_SMALL = 9, /* more joins, or more slips of the side, than fit the lists lent. Detail: joins, perhaps 0 */
    KOTSGHANE_REFUSED_NO_SUCH_SLIP = 10,                /* a slip number is 0 or above the count of slips. Detail: that number, perhaps 0 */
    KOTSGHANE_REFUSED_SAME_SLIP_TWICE = 11,             /* a pair is one slip with itself. Detail: the slip */
    KOTSGHANE_REFUSED_TEXT_TOO_LONG = 12,               /* the text has more than KOTSGHANE_MAX_TEXT bytes */
    KOTSGHANE_REFUSED_BAD_TEXT_BYTE = 13,               /* a byte is neither A to Z nor the full stop. Detail: its place, from 1 */
    KOTSGHANE_REFUSED_FOUND_LIST_TOO_SMALL = 14,        /* more occurrences than their list takes. Detail: how many occurrences */
    KOTSGHANE_REFUSED_TRAY_BUFFERS_TOO_SMALL = 15,      /* too few letters, ends or sides are lent for a tray that is read or merged */
    KOTSGHANE_REFUSED_FILE_TOO_LONG = 16,               /* the tray file has more than KOTSGHANE_MAX_FILE bytes */
    KOTSGHANE_REFUSED_BAD_LINE = 17,                    /* a line is not laid out as kotsghane_read_tray says. Detail: the line, from 1 */
    KOTSGHANE_REFUSED_WRONG_SLIP_NUMBER = 18,           /* the slip number on a line is not the number of the line. Detail: the line */
    KOTSGHANE_REFUSED_WRONG_LENGTH = 19,                /* the length on a line is not the count of its letters. Detail: the line */
    KOTSGHANE_REFUSED_TOO_MANY_KEPT_SLIPS = 20,         /* the shortest legend is sought, and more than KOTSGHANE_MAX_SHORTEST slips of the side are kept */
    KOTSGHANE_REFUSED_LEAST_OVERLAP_OUT_OF_RANGE = 21,  /* the least overlap is 0 or more than KOTSGHANE_MAX_LEAST */
    KOTSGHANE_REFUSED_BAD_SIDE = 22                     /* there is not one side for each slip; or one of them, or the side named, is none of the three:
                                                         * lend one for each slip, and KOTSGHANE_BLANK where none is known */
};

/* How many numbers a record of each list has, and which. */
enum {
    KOTSGHANE_JOIN = 3,       /* left slip, right slip, overlap; in the order in which the joins are made */
    KOTSGHANE_PLACE = 5,      /* slip; place in the legend, from 1; 1 if kept, 0 if set aside; letters compared to find the place, 0 if kept; side.
                               * One for each slip of the side, in the order of their numbers */
    KOTSGHANE_OCCURRENCE = 2  /* place of the last letter in the text, from 1, and slip */
};

/* What stands where in an answer. Each begins with the number and the detail of the refusal, both 0 if there is none; after a refusal all that follows is 0. */
enum { KOTSGHANE_NUMBER, KOTSGHANE_DETAIL };

/* The answer of kotsghane_compose: counts of slips of the side, kept slips, letters of the kept slips, letters saved by overlaps, letters of the legend, and
 * joins. */
enum {
    KOTSGHANE_COMPOSED_SLIPS = 2,
    KOTSGHANE_COMPOSED_KEPT,
    KOTSGHANE_COMPOSED_KEPT_LETTERS,
    KOTSGHANE_COMPOSED_SAVED,
    KOTSGHANE_COMPOSED_LEGEND,
    KOTSGHANE_COMPOSED_JOINS,
    KOTSGHANE_COMPOSED_NUMBERS
};

/* The answer of kotsghane_shortest: letters of the legend, how many slips are kept, and their numbers in the order in which they are laid, 0 past the
 * count. */
enum {
    KOTSGHANE_SHORTEST_LEGEND = 2,
    KOTSGHANE_SHORTEST_COUNT,
    KOTSGHANE_SHORTEST_ORDER,
    KOTSGHANE_SHORTEST_NUMBERS = KOTSGHANE_SHORTEST_ORDER + KOTSGHANE_MAX_SHORTEST
};

/* The answer of kotsghane_find: moves of the automaton, at most twice the letters of the text, and how many occurrences there are. */
enum { KOTSGHANE_FOUND_MOVES = 2, KOTSGHANE_FOUND_COUNT, KOTSGHANE_FOUND_NUMBERS };

/* The answer of kotsghane_slip: the slip is letters[start] up to, but not including, letters[end]. */
enum { KOTSGHANE_SLIP_START = 2, KOTSGHANE_SLIP_END, KOTSGHANE_SLIP_NUMBERS };

/* The answer of kotsghane_pair: how many letters overlap. */
enum { KOTSGHANE_PAIR_OVERLAP = 2, KOTSGHANE_PAIR_NUMBERS };

/* The answer of kotsghane_read_tray: how many letters were written, and how many slips, which is how many ends and how many sides. */
enum { KOTSGHANE_READ_LETTERS = 2, KOTSGHANE_READ_SLIPS, KOTSGHANE_READ_NUMBERS };

/* The answer of kotsghane_merge: the same. */
enum { KOTSGHANE_MERGED_LETTERS = 2, KOTSGHANE_MERGED_SLIPS, KOTSGHANE_MERGED_NUMBERS };

/* Composes one side of a tray. Ordered pairs of its kept slips that overlap by at least `least` letters are taken by longer overlap, then by smaller overlap
 * string, then by lower right slip, then by lower left slip. A pair becomes a join unless its left slip has been joined on its right already, its right slip
 * on its left, or a ring would close. The chains of joined slips, single slips included, are laid one after another, by the number of their first slip. The
 * place of a kept slip is where it was laid, that of a slip set aside the first place of the legend at which its letters stand. docs/RULES.md has examples.
 *
 * Lend KOTSGHANE_WORK cells. KOTSGHANE_MAX_LETTERS letters, KOTSGHANE_JOIN * KOTSGHANE_MAX_SLIPS numbers of joins and KOTSGHANE_PLACE * KOTSGHANE_MAX_SLIPS
 * of places suffice for any tray. Refusals 1 to 9; 21, which is reported first; and 22, which is reported after 6 and before 7. */
void kotsghane_compose(const uint8_t *letters, size_t letters_len, const uint16_t *ends, size_t ends_len, const uint8_t *sides, size_t sides_len,
                       uint32_t least, uint8_t side, uint16_t *work, size_t work_len, uint8_t *legend, size_t legend_len, uint16_t *joins,
                       size_t joins_len, uint16_t *places, size_t places_len, uint32_t answer[KOTSGHANE_COMPOSED_NUMBERS]);

/* Seeks the order of the kept slips of one side whose legend is shortest; of several, the one that is smallest as a list of slip numbers. The legend is laid
 * as one chain: each slip adds its letters beyond the overlap with the one before it, if that has at least `least` letters. Lend KOTSGHANE_WORK cells;
 * KOTSGHANE_MAX_SHORTEST * KOTSGHANE_MAX_SLIP letters suffice for any tray. Refusals 1 to 8; 20, which is reported before 8; 21, which is reported first; and
 * 22, which is reported after 6 and before 7. */
void kotsghane_shortest(const uint8_t *letters, size_t letters_len, const uint16_t *ends, size_t ends_len, const uint8_t *sides, size_t sides_len,
                        uint32_t least, uint8_t side, uint16_t *work, size_t work_len, uint8_t *legend, size_t legend_len,
                        uint32_t answer[KOTSGHANE_SHORTEST_NUMBERS]);

/* Finds every occurrence of every slip, kept or not and of any side, in a text: by end place, then longer slips first, then lower numbers. It takes no sides.
 * Lend KOTSGHANE_WORK cells, and KOTSGHANE_OCCURRENCE numbers for each occurrence; there are at most KOTSGHANE_MAX_TEXT * KOTSGHANE_MAX_SLIPS. Refusals 1 to 7
 * and 12 to 14; the detail of 14 is how many occurrences there are. */
void kotsghane_find(const uint8_t *letters, size_t letters_len, const uint16_t *ends, size_t ends_len, const uint8_t *text, size_t text_len,
                    uint16_t *work, size_t work_len, uint32_t *found, size_t found_len, uint32_t answer[KOTSGHANE_FOUND_NUMBERS]);

/* Where the letters of one slip start and end in those of the tray. It takes no sides. Refusals 1 to 6, 10. */
void kotsghane_slip(const uint8_t *letters, size_t letters_len, const uint16_t *ends, size_t ends_len, uint32_t slip,
                    uint32_t answer[KOTSGHANE_SLIP_NUMBERS]);

/* How many letters end the left slip and begin the right one; 0 where their sides differ, and where the letters are full stops alone, or fewer than the least
 * overlap. No side is named: the slips have theirs. Refusals 1 to 6, 10, 11; 21, which is reported first; and 22, which is reported after 6 and before 10. */
void kotsghane_pair(const uint8_t *letters, size_t letters_len, const uint16_t *ends, size_t ends_len, const uint8_t *sides, size_t sides_len,
                    uint32_t left, uint32_t right, uint32_t least, uint32_t answer[KOTSGHANE_PAIR_NUMBERS]);

/* Reads the bytes of a tray file into letters, ends and sides. A tray file has a line for each slip: the slip number, right-justified in columns 1 to 4
 * without leading zeros, the length, likewise in columns 5 to 8, the side in column 9, a blank, O or R, then the letters, and LF, on the last line too. Callers
 * who fetch the bytes from a file should have room for one more than KOTSGHANE_MAX_FILE: then a file that is too long is refused, and not cut. No bytes at all
 * are the tray without slips. A line that ends with CR LF has the CR among its letters.
 *
 * Lend at least KOTSGHANE_MAX_FILE letters, KOTSGHANE_FILE_ENDS ends and KOTSGHANE_FILE_ENDS sides. Letters are filed as the die has them: small ones as
 * capitals, U as V, J as I; a byte that is still no letter is filed as 0. No other call folds letters in this way, and column 9 is never folded: a small o
 * there is refused by 17. Refusals 15 to 19, of the file as it stands; the tray itself is judged by the other calls, which refuse a 0 by 6. */
void kotsghane_read_tray(const uint8_t *file, size_t file_len, uint8_t *letters, size_t letters_len, uint16_t *ends, size_t ends_len, uint8_t *sides,
                         size_t sides_len, uint32_t answer[KOTSGHANE_READ_NUMBERS]);

/* Merges two trays into letters, ends and sides: the slips of the first, and then those of the second that equal no slip written before, numbered anew from 1.
 * Equal slips have the same letters and are of one side. Equal slips of the first tray all stay; a slip that is only a part of another is not its equal. Lend
 * at least KOTSGHANE_MAX_LETTERS letters, KOTSGHANE_MAX_SLIPS ends and KOTSGHANE_MAX_SLIPS sides. Refusal 15, which is reported first; 1 to 6 and 22 of the
 * first tray, then of the second, by its own slip numbers; then 1 and 4 of the outcome. The answer does not say which of the three was refused. Where the two
 * trays, simply written one after the other, are accepted as one, each side of that tray has the legend of that side of the outcome. */
void kotsghane_merge(const uint8_t *letters1, size_t letters1_len, const uint16_t *ends1, size_t ends1_len, const uint8_t *sides1, size_t sides1_len,
                     const uint8_t *letters2, size_t letters2_len, const uint16_t *ends2, size_t ends2_len, const uint8_t *sides2,
                     size_t sides2_len, uint8_t *letters, size_t letters_len, uint16_t *ends, size_t ends_len, uint8_t *sides, size_t sides_len,
                     uint32_t answer[KOTSGHANE_MERGED_NUMBERS]);

#ifdef __cplusplus
}
#endif

#endif
