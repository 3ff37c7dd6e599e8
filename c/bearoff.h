/*
 * bearoff.h: answers of a proved backgammon bearoff database, for C and C++.
 *
 * Five calls do most of the work. bearoff_open verifies the bytes of a file, and
 * bearoff_read_position reads a position. For a position, bearoff_mean gives the minimum expected
 * number of rolls, bearoff_epc the effective pip count (EPC), and bearoff_play the best play of a
 * roll. A whole program that reads a file from standard input:
 *
 *     #include <stdio.h>
 *     #include "bearoff.h"
 *     static uint8_t bytes[BEAROFF_FILE], line[BEAROFF_LINE];
 *     static bearoff_file file = BEAROFF_CLOSED;
 *     int main(void) {
 *         size_t length = fread(bytes, 1, sizeof bytes, stdin), needed;
 *         if (bearoff_open(&file, bytes, length, line, sizeof line, &needed)) return 1;
 *         bearoff_position position = {{0, 0, 0, 2, 0, 0}};
 *         bearoff_rounded pips;
 *         bearoff_recorded_play play;
 *         if (bearoff_epc(&file, &position, &pips)) return 1;
 *         if (bearoff_play(&file, &position, 2, 1, &play)) return 1;
 *         printf("%.3f pips, %d/%d\n", (double)pips.thousandths / 1000,
 *                play.moves[0].from, play.moves[0].to);
 *     }
 *
 * Files. A file is what `bearoff build` writes, or any other bytes that are right: a database
 * (version 1 or 2), or a board file (version 3), which has every home board position up to its pip
 * bound. bearoff_open accepts bytes if and only if every mean in them is the minimum over all
 * strategies, the recorded plays reach these means, and the recorded shares are those of these
 * plays. That is proved, and so are the answers of all calls below.
 *
 * Ownership. The library allocates no memory and keeps no state. You own the bytes and the struct
 * bearoff_file. Don't change or free either while the file is in use; you may copy or move the
 * struct. There is nothing to close. If the bytes change anyway, no call reads outside them, since
 * only the struct determines where it reads. An answer may then be wrong, or the call returns
 * BEAROFF_CHANGED. While another thread changes the bytes, a call that gets them may return any
 * status from 0 to 28, whatever its comment says; 28 is returned only then. It still writes only
 * to your output buffers. Pointers must not be NULL, even if a length is 0. A struct set to
 * BEAROFF_CLOSED, or to zeros, is a file that is not open, and each call says so.
 *
 * Threads. Any thread may make any call, and threads may share a file that they only read.
 *
 * Stack. bearoff_open, bearoff_build and bearoff_upgrade need less than BEAROFF_STACK bytes of
 * stack, every other call less than 128 KB. A main thread, with 8 MB on most systems, has enough.
 * Give other threads enough before they make such a call.
 *
 * Errors. Each call except bearoff_thousandths returns a status. If it isn't BEAROFF_OK, your data
 * is unchanged, except where the comment of the call says otherwise.
 *
 * Order of errors. If several apply, a call returns the first of these: BEAROFF_NOT_OPEN;
 * BEAROFF_BAD_ROLL; BEAROFF_TOO_MANY, of any position; BEAROFF_OVER_BOUND and BEAROFF_FINISHED, of
 * the first position only; BEAROFF_NOT_LEGAL; BEAROFF_NO_RANK; BEAROFF_CHANGED;
 * BEAROFF_BUFFER_TOO_SMALL. An upgrade returns a fault of the bytes before BEAROFF_NOT_OLD, and
 * that before BEAROFF_BUFFER_TOO_SMALL.
 */
#ifndef BEAROFF_H
#define BEAROFF_H

#include <stdbool.h>
#include <stddef.h>
#include <stdint.h>

#ifdef __cplusplus
extern "C" {
#endif

/* The version of this header; bearoff_library_version returns that of the library. */
#define BEAROFF_VERSION "1.0.0"

/* What a call returns; bearoff_status_text has these texts. */
enum bearoff_status {
    BEAROFF_OK = 0,               /* success */
    BEAROFF_NOT_OPEN = 1,         /* the file is not open */
    BEAROFF_BAD_ROLL = 2,         /* a die is not 1 to 6 */
    BEAROFF_TOO_MANY = 3,         /* a position has more than 15 checkers */
    BEAROFF_OVER_BOUND = 4,       /* the pips exceed the bound, or the bound exceeds the limit */
    BEAROFF_FINISHED = 5,         /* no checker is left to move */
    BEAROFF_NOT_LEGAL = 6,        /* the roll doesn't lead to that position */
    BEAROFF_CHANGED = 7,          /* the bytes changed since they were verified */
    BEAROFF_BUFFER_TOO_SMALL = 8, /* the buffer is too small */
    BEAROFF_NOT_OLD = 9,          /* the file to upgrade already has version 2 */
    BEAROFF_NO_RANK = 10,         /* no position has that rank, or the range is too long */
    BEAROFF_BAD_TEXT = 11,        /* the text is not a position */

    /* the first fault of bytes that are not a right file */
    BEAROFF_TOO_SHORT = 16,        /* fewer than 32 bytes */
    BEAROFF_BAD_MAGIC = 17,        /* the bytes don't begin with EPCTABLE */
    BEAROFF_BAD_VERSION = 18,      /* the version is not 1 or 2, or that of a board file not 3 */
    BEAROFF_BAD_BOUND = 19,        /* the bound exceeds its version's limit of 44, 58 or 90 */
    BEAROFF_BAD_COUNT = 20,        /* the count doesn't match the bound */
    BEAROFF_BAD_RECORD_BYTES = 21, /* the record size doesn't match the version, 426 or 0 */
    BEAROFF_BAD_RESERVED = 22,     /* a reserved byte is not zero */
    BEAROFF_BAD_LENGTH = 23,       /* more or fewer bytes than the header says */
    BEAROFF_BAD_PLAY = 24,         /* a recorded play is not legal */
    BEAROFF_NOT_LEAST = 25,        /* a recorded play doesn't reach the least mean */
    BEAROFF_BAD_MEAN = 26,         /* a recorded mean is not that of the recorded plays */
    BEAROFF_BAD_SPREAD = 27,       /* a share or count is not that of the recorded plays */

    /* why a text is not a race, from bearoff_read_position */
    BEAROFF_SAME_POINT = 32,    /* both players have a checker on one point */
    BEAROFF_ON_BAR = 33,        /* a checker is on the bar */
    BEAROFF_OUTSIDE = 34,       /* the player on roll has a checker outside the home board */
    BEAROFF_CONTACT = 35,       /* an opponent's checker is behind one of the player on roll */
    BEAROFF_OTHER_OUTSIDE = 36, /* the opponent has a checker outside the home board */
};

/* The numbers of checkers on points 1 to 6, the ace point first; all others are borne off. A sum
 * over 15 is not a position. */
typedef struct bearoff_position {
    uint8_t points[6];
} bearoff_position;

/* A 192-bit number, most significant word first: 2^128 * words[0] + 2^64 * words[1] + words[2]. */
typedef struct bearoff_number {
    uint64_t words[3];
} bearoff_number;

/* A fraction in lowest terms; the denominator is not 0. */
typedef struct bearoff_fraction {
    bearoff_number numerator;
    bearoff_number denominator;
} bearoff_fraction;

/* A mean in rolls, or an EPC in pips: exact, and in thousandths, rounded half up. */
typedef struct bearoff_rounded {
    bearoff_fraction exact;
    uint64_t thousandths;
} bearoff_rounded;

/* A wastage in thousandths of a pip. `is_below` marks a negative one, which no position has. */
typedef struct bearoff_wasted {
    uint64_t thousandths;
    bool is_below;
} bearoff_wasted;

/* The probabilities of exactly 0 to 33 rolls, as numerators over 36^rolls, which is their sum.
 * Those above the file's most rolls are 0. */
typedef struct bearoff_shares {
    bearoff_number shares[34];
} bearoff_shares;

/* A probability: its numerator over 36^rolls, and in thousandths, rounded half up. */
typedef struct bearoff_chance {
    bearoff_number numerator;
    uint64_t thousandths;
} bearoff_chance;

/* One checker's move, from point 1 to 6 to a lower one; 0 means borne off. */
typedef struct bearoff_move {
    uint8_t from;
    uint8_t to;
} bearoff_move;

/* A play: its moves in order, zeros after the last; how many there are, 1 to 4 (0 if no checker is
 * left); and the position after it. */
typedef struct bearoff_recorded_play {
    bearoff_move moves[4];
    uint8_t count;
    bearoff_position to;
} bearoff_recorded_play;

/* A position that a roll can lead to, and its loss in rolls: the least mean after this play, minus
 * the least mean after the best play of the roll. */
typedef struct bearoff_result {
    bearoff_position to;
    bearoff_fraction loss;
} bearoff_result;

/* What bearoff_about says of a file. */
typedef struct bearoff_facts {
    uint16_t version;   /* 1 or 2: database; 3: board file */
    uint8_t bound;      /* the pip bound: 0 to 58 for a database, 0 to 90 for a board file */
    uint8_t rolls;      /* the most rolls, 22 or 33; numbers are over 36^rolls */
    uint32_t positions; /* the number of positions with at most `bound` pips */
} bearoff_facts;

/*
 * An open file, 17,680 bytes in your memory. Only bearoff_open writes it. Initialize it with
 * BEAROFF_CLOSED, which is not open. Zeros are not open either, which is tested and not proved,
 * since the proof assumes pointers that are not NULL.
 */
typedef struct bearoff_file {
    const uint8_t *bytes;
    size_t length;
    uint8_t is_open;
    uint8_t bound;
    uint16_t version;
    uint16_t ranks[6 * 16 * 91 + 92];
} bearoff_file;

/* bearoff_file file = BEAROFF_CLOSED; */
#define BEAROFF_CLOSED {(const uint8_t *)"", 0, 0, 0, 0, {0}}

/* Converts a number to a double near to it. */
static inline double bearoff_number_as_double(bearoff_number number) {
    return ((double)number.words[0] * 18446744073709551616.0 + (double)number.words[1]) *
               18446744073709551616.0 +
           (double)number.words[2];
}

/*
 * Converts a mean, share or chance of an open file, given as its numerator over 36^rolls, to a
 * double near to it. For the parts of a bearoff_fraction, use bearoff_fraction_as_double.
 */
static inline double bearoff_as_double(const bearoff_file *file, bearoff_number numerator) {
    double over_database =
        bearoff_number_as_double(numerator) / 17324272922341479351919144385642496.0;
    return file->version == 3 ? over_database / 131621703842267136.0 : over_database;
}

/*
 * Computes the variance of the number of rolls, in rolls squared, as a double near to it, from the
 * result of bearoff_distribution. Its square root is the standard deviation.
 */
static inline double bearoff_variance(const bearoff_file *file, const bearoff_shares *shares) {
    double mean = 0, variance = 0;
    for (int rolls = 0; rolls < 34; rolls++)
        mean += rolls * bearoff_as_double(file, shares->shares[rolls]);
    for (int rolls = 0; rolls < 34; rolls++)
        variance +=
            (rolls - mean) * (rolls - mean) * bearoff_as_double(file, shares->shares[rolls]);
    return variance;
}

/* Converts a fraction, such as a loss or bearoff_rounded.exact, to a double near to it. */
static inline double bearoff_fraction_as_double(bearoff_fraction fraction) {
    return bearoff_number_as_double(fraction.numerator) /
           bearoff_number_as_double(fraction.denominator);
}

/* Stack in bytes that is enough for any call. */
#define BEAROFF_STACK 1572864

/* The greatest size in bytes of any file, and of an upgraded one. */
#define BEAROFF_FILE 15060844
#define BEAROFF_UPGRADE 7608420

/* The greatest length in bytes of a fault's line. */
#define BEAROFF_LINE 32

/* A buffer size that is enough for the text of any status. */
#define BEAROFF_STATUS_TEXT 80

/* The most positions that a roll can lead to. */
#define BEAROFF_RESULTS 127

/* A buffer size that is enough for any reply; 12,070 bytes are enough for those of a database. */
#define BEAROFF_REPLY 16642

/*
 * Gets the version of the library that is linked or loaded, 1.2.3 as 1, 2 and 3. It equals
 * BEAROFF_VERSION if the header is of the same release. Returns BEAROFF_OK.
 */
uint32_t bearoff_library_version(uint16_t *major, uint16_t *minor, uint16_t *patch);

/*
 * Gets the text of a status, as in the comments of the enum above. The text of 28 says that the
 * bytes were changed while they were read; that of any other number is `unknown status`. The text
 * is written to `text` without a final zero byte, and its length to `*needed`, at most
 * BEAROFF_STATUS_TEXT. Returns BEAROFF_OK, or BEAROFF_BUFFER_TOO_SMALL if `room` is less than
 * `*needed`; then `text` is unchanged.
 */
uint32_t bearoff_status_text(uint32_t status, uint8_t *text, size_t room, size_t *needed);

/*
 * Verifies `length` bytes and opens a file over them: a database of up to 58 pips or a board file,
 * by the version in the header. Takes 0.2 s for 44 pips and 1.5 MB of stack. Returns BEAROFF_OK if
 * and only if the bytes are a right file. Otherwise the status, 16 to 27, is the first fault (that
 * of a board file if the version is not 1 or 2), and the file is not open. `line` then gets the
 * line of the fault, such as `mean rank 1`, without a final zero byte, if all of it fits, and
 * `*needed` its length, at most BEAROFF_LINE. On success `line` is unchanged and `*needed` is 0.
 */
uint32_t bearoff_open(bearoff_file *file, const uint8_t *bytes, size_t length, uint8_t *line,
                      size_t room, size_t *needed);

/* Describes an open file without reading its bytes. Returns BEAROFF_OK or BEAROFF_NOT_OPEN. */
uint32_t bearoff_about(const bearoff_file *file, bearoff_facts *about);

/*
 * Gets the rank of a position, 0 to 54,263: the number of positions before it. Positions are
 * sorted by pips, and then by their counts in lexicographic order, the ace point first. Returns
 * the statuses of bearoff_mean except BEAROFF_CHANGED, since neither this call nor the next reads
 * the bytes.
 */
uint32_t bearoff_rank(const bearoff_file *file, const bearoff_position *position, uint16_t *rank);

/*
 * Gets the position of a rank. Returns BEAROFF_OK, BEAROFF_NOT_OPEN, or BEAROFF_NO_RANK if the
 * rank is not below the number of positions of the file.
 */
uint32_t bearoff_position_of(const bearoff_file *file, uint16_t rank, bearoff_position *position);

/*
 * Gets the minimum expected number of rolls until all checkers are off, over all strategies, as a
 * numerator over 36^rolls, where `rolls` is 22 or 33 (bearoff_facts). Returns BEAROFF_OK,
 * BEAROFF_NOT_OPEN, BEAROFF_TOO_MANY or BEAROFF_OVER_BOUND, or BEAROFF_CHANGED if the bytes
 * changed after bearoff_open and no longer hold a possible mean there.
 */
uint32_t bearoff_mean(const bearoff_file *file, const bearoff_position *position,
                      bearoff_number *mean);

/* Gets that mean as a fraction and in thousandths of a roll. Returns the statuses of
 * bearoff_mean. */
uint32_t bearoff_rounded_mean(const bearoff_file *file, const bearoff_position *position,
                              bearoff_rounded *rolls);

/* Gets the EPC: 49/6 pips per roll of the mean. Returns the statuses of bearoff_mean. */
uint32_t bearoff_epc(const bearoff_file *file, const bearoff_position *position,
                     bearoff_rounded *pips);

/*
 * Gets the wastage: the EPC in thousandths, minus 1000 times the pip count. If that were negative,
 * `is_below` would be true and `thousandths` its absolute value; no position has that. Returns the
 * statuses of bearoff_mean.
 */
uint32_t bearoff_wastage(const bearoff_file *file, const bearoff_position *position,
                         bearoff_wasted *wastage);

/*
 * Gets the probability of each number of rolls if every play is the recorded one. Returns the
 * statuses of bearoff_mean; BEAROFF_CHANGED if the bytes changed and no longer hold possible
 * shares there.
 */
uint32_t bearoff_distribution(const bearoff_file *file, const bearoff_position *position,
                              bearoff_shares *shares);

/*
 * Gets the chance that all checkers are off within `rolls` rolls if every play is the recorded
 * one: the sum of the shares up to `rolls`. It is 1 from the file's most rolls on. Returns the
 * statuses of bearoff_distribution.
 */
uint32_t bearoff_within(const bearoff_file *file, const bearoff_position *position, uint8_t rolls,
                        bearoff_chance *chance);

/*
 * Tables: these get the positions of the `count` ranks from `first` on, by rank, and their means,
 * EPCs and shares, as the calls for one position do. `count` may be 0. They return BEAROFF_OK,
 * BEAROFF_NOT_OPEN, BEAROFF_NO_RANK if `first` + `count` exceeds the number of positions, or
 * BEAROFF_CHANGED (not for positions, which need no byte of the file). Each error is found before
 * the first element is written, unless the bytes change during the call; then BEAROFF_CHANGED may
 * come later.
 */
uint32_t bearoff_listed_positions(const bearoff_file *file, uint16_t first,
                                  bearoff_position *positions, size_t count);
uint32_t bearoff_listed_means(const bearoff_file *file, uint16_t first, bearoff_number *means,
                              size_t count);
uint32_t bearoff_listed_epcs(const bearoff_file *file, uint16_t first, bearoff_rounded *epcs,
                             size_t count);
uint32_t bearoff_listed_distributions(const bearoff_file *file, uint16_t first,
                                      bearoff_shares *shares, size_t count);

/*
 * Gets the recorded play of a roll, whose dice, 1 to 6, come in either order. No play has a
 * smaller mean; others may be equally good. Returns the statuses of bearoff_mean, BEAROFF_BAD_ROLL
 * or BEAROFF_FINISHED; BEAROFF_CHANGED if the bytes changed and the roll can't lead to the
 * position that they now name.
 */
uint32_t bearoff_play(const bearoff_file *file, const bearoff_position *position, uint8_t one,
                      uint8_t other, bearoff_recorded_play *play);

/*
 * Gets the loss of a play to the position `to`, in rolls: the least mean after it, minus the least
 * mean after the best play of the roll. It is 0 if and only if some best strategy plays so. Use
 * bearoff_fraction_as_double for a double. Returns the statuses of bearoff_play, BEAROFF_TOO_MANY
 * also for `to`, or BEAROFF_NOT_LEGAL. BEAROFF_CHANGED also comes if the bytes changed and a mean
 * after a play is not possible, or less than that after the recorded play.
 */
uint32_t bearoff_loss(const bearoff_file *file, const bearoff_position *position, uint8_t one,
                      uint8_t other, const bearoff_position *to, bearoff_fraction *loss);

/*
 * Lists each position that a roll can lead to once, with its loss, sorted by loss and then by
 * rank. `room` has space for `length` results; `*count` gets their number, at most
 * BEAROFF_RESULTS. Returns the statuses of bearoff_play, or BEAROFF_BUFFER_TOO_SMALL; then
 * `*count` is written and no result. BEAROFF_CHANGED has the reasons of bearoff_loss, for any of
 * the results, and comes before BEAROFF_BUFFER_TOO_SMALL; then nothing is written.
 */
uint32_t bearoff_moves(const bearoff_file *file, const bearoff_position *position, uint8_t one,
                       uint8_t other, bearoff_result *room, size_t length, size_t *count);

/*
 * Answers a line of the query language: `mean POSITION`, `dist POSITION`, `play POSITION ROLL`,
 * `loss POSITION ROLL POSITION`, `moves POSITION ROLL` or `rank POSITION`, where a position is
 * like 0,0,0,0,0,1. The line has `length` bytes, any bytes, without a line ending. `text` gets the
 * reply of `bearoff query` without its line feed and without a final zero byte, and `*needed` its
 * length, at most BEAROFF_REPLY. A line that is not a query gets a reply that starts with `error`.
 * Returns BEAROFF_OK, BEAROFF_NOT_OPEN, BEAROFF_BUFFER_TOO_SMALL if `room` is less than `*needed`
 * (then `text` is unchanged), or BEAROFF_CHANGED if the bytes changed and no reply can be written:
 * for the reasons of the other calls, and for `dist` also if the shares don't sum to the whole.
 * Lines that are refused, and `rank`, never return BEAROFF_CHANGED.
 */
uint32_t bearoff_answer_line(const bearoff_file *file, const uint8_t *line, size_t length,
                             uint8_t *text, size_t room, size_t *needed);

/*
 * Builds a file of a version and pip bound at the start of `room`, and sets `*filled` to its size:
 * 11,209,796 bytes for version 1 and 44 pips, BEAROFF_FILE for version 2 and 58, 14,643,664 for
 * version 3 (a board file) and 90. Versions 1 and 2 need a second buffer of at least the same
 * size, `work`, which the call overwrites. It needs less than BEAROFF_STACK bytes of stack, and
 * less than 128 KB for a database of at most 8 pips. Returns BEAROFF_OK; BEAROFF_OVER_BOUND if and
 * only if the version has no file of that bound (the greatest are 44, 58 and 90); otherwise
 * BEAROFF_BUFFER_TOO_SMALL if and only if a buffer is smaller than the file. On an error `room`
 * and `*filled` are unchanged.
 */
uint32_t bearoff_build(uint16_t version, uint8_t bound, uint8_t *work, size_t work_length,
                       uint8_t *room, size_t room_length, size_t *filled);

/*
 * Writes the version 1 database in `length` bytes as a version 2 file at the start of `room`, and
 * sets `*filled` to its size, at most BEAROFF_UPGRADE. The new file has the same bound, means,
 * plays and shares, and so the same replies. `work` is a second buffer of at least that size,
 * which the call overwrites. The bytes are verified first. Returns BEAROFF_OK; the fault of the
 * bytes; BEAROFF_NOT_OLD if they are a right file of version 2; or BEAROFF_BUFFER_TOO_SMALL. On an
 * error `room` and `*filled` are unchanged. It needs as much stack as bearoff_open.
 */
uint32_t bearoff_upgrade(const uint8_t *bytes, size_t length, uint8_t *work, size_t work_length,
                         uint8_t *room, size_t room_length, size_t *filled);

/*
 * Gets the first play of a roll, whose dice, 1 to 6, come in either order, that leads from
 * `position` to `to`, good or bad. It needs no file. From a position without checkers every roll
 * leads to the same position, with no move. Returns BEAROFF_OK; BEAROFF_BAD_ROLL; BEAROFF_TOO_MANY
 * if either position has more than 15 checkers; or BEAROFF_NOT_LEGAL if the roll doesn't lead
 * there.
 */
uint32_t bearoff_play_to(const bearoff_position *position, uint8_t one, uint8_t other,
                         const bearoff_position *to, bearoff_recorded_play *play);

/*
 * Rounds a fraction from another call to thousandths, half up. Returns true, or false if the
 * denominator is 0 or over 6 * 36^33, or the fraction over 180; then `*thousandths` is unchanged.
 */
bool bearoff_thousandths(const bearoff_fraction *fraction, uint64_t *thousandths);

/* A race in the home boards. Parts that the text doesn't contain are zeros. */
typedef struct bearoff_race {
    bearoff_position mine;   /* the checkers of the player on roll */
    bearoff_position theirs; /* the checkers of the opponent */
    bool has_theirs;         /* whether the text contains these */
    uint8_t high;            /* the greater die, 1 to 6 */
    uint8_t low;             /* the smaller die, 1 to 6 */
    uint8_t on_roll;         /* who is on roll: 1 at the bottom, 2 at the top */
} bearoff_race;

/*
 * Reads a race from a text of `length` bytes, which may have blanks around it: six counts of the
 * player on roll, the ace point first, separated by commas, each of one to three digits without
 * leading zeros, such as `0,0,0,2,0,1`; an XGID, with or without `XGID=`; or a Position ID of GNU
 * Backgammon, alone or with a Match ID after a colon or blanks, with or without `==` and the
 * labels that GNU Backgammon prints. The cube, score and match fields of an XGID only need to be
 * numbers; of a Match ID only the dice and the player on roll are used. It needs no file. Returns
 * BEAROFF_OK; BEAROFF_BAD_TEXT if the text is none of these, or an XGID doesn't say who is on
 * roll; or the first that applies of BEAROFF_TOO_MANY, BEAROFF_SAME_POINT, BEAROFF_ON_BAR,
 * BEAROFF_OUTSIDE, BEAROFF_CONTACT and BEAROFF_OTHER_OUTSIDE. On an error `race` is unchanged.
 * `*place` gets the lowest point with checkers of both, the point of the opponent's last checker
 * (both as the player on roll counts), or the farthest point outside; for BEAROFF_TOO_MANY and
 * BEAROFF_ON_BAR, 1 for the player on roll and 2 for the opponent; otherwise 0.
 */
uint32_t bearoff_read_position(const uint8_t *text, size_t length, bearoff_race *race,
                               uint8_t *place);

/* The pip count, 0 to 90, the checkers left, and those of 15 that are borne off. */
typedef struct bearoff_info {
    uint8_t pips;
    uint8_t checkers;
    uint8_t off;
} bearoff_info;

/* Gets the pips and checkers of a position, without a file. Returns BEAROFF_OK or
 * BEAROFF_TOO_MANY. */
uint32_t bearoff_position_info(const bearoff_position *position, bearoff_info *info);

#ifdef __cplusplus
}
#endif

#endif
