/*
 * The rooms that the header names are enough for every position and roll of a database:
 * BEAROFF_RESULTS for the results, and BEAROFF_REPLY for the reply to a line.
 *
 * usage: largest FILE STEP       a right database, and of its ranks each STEPth from 1 on
 *
 * Each list of results that is longer than 64 is asked for again, and so is its line: with a room
 * of the header's size, of one less, of exactly what was told, and of one less than that, which is
 * too small. All rooms stand between guards. Says how many results and how many bytes there were
 * at most.
 */
#include <stdio.h>
#include <stdlib.h>
#include <string.h>

#include "bearoff.h"

enum { GUARD = 64, MARK = 0xA5, LONG = 64 };

static uint8_t bytes[BEAROFF_FILE + 1],
    result_block[2 * GUARD + BEAROFF_RESULTS * sizeof(bearoff_result)];
static uint8_t text_block[2 * GUARD + BEAROFF_REPLY];
static bearoff_file database = BEAROFF_CLOSED;
static size_t most_results, most_bytes;
static int failed;

static void expect(int holds, const char *what, long rank, long number) {
    if (!holds) {
        fprintf(stderr, "largest: %s, rank %ld (%ld)\n", what, rank, number);
        failed = 1;
    }
}

static int is_marked(const uint8_t *from, size_t size) {
    return !size || (from[0] == MARK && !memcmp(from, from + 1, size - 1));
}

/* room of a size between guards, of which the front is lent */
static void *lend(uint8_t *block, size_t size) {
    memset(block, MARK, GUARD + size + GUARD);
    return block + GUARD;
}

/* whether nothing was written but so many bytes */
static int kept(const uint8_t *block, size_t size, size_t written) {
    return is_marked(block, GUARD) && is_marked(block + GUARD + written, size - written + GUARD);
}

/* how many results a roll has, with so much room */
static size_t list(bearoff_position at, uint8_t one, uint8_t other, size_t room, size_t wanted,
                   long rank) {
    size_t count = 0, size = room * sizeof(bearoff_result);
    bearoff_result *results = (bearoff_result *)lend(result_block, size);
    uint32_t status = bearoff_moves(&database, &at, one, other, results, room, &count);
    int fits = count <= room;
    expect(status == (fits ? BEAROFF_OK : BEAROFF_BUFFER_TOO_SMALL), "the status of the results",
           rank, (long)room);
    expect(count == wanted || !wanted, "how many results", rank, (long)count);
    expect(kept(result_block, size, fits ? count * sizeof(bearoff_result) : 0),
           "beside the results", rank, (long)room);
    return count;
}

/* how many bytes a reply has, with so much room */
static size_t answer(const char *line, size_t room, size_t wanted, long rank) {
    size_t needed = 0;
    uint8_t *text = (uint8_t *)lend(text_block, room);
    uint32_t status =
        bearoff_answer_line(&database, (const uint8_t *)line, strlen(line), text, room, &needed);
    int fits = needed <= room;
    expect(status == (fits ? BEAROFF_OK : BEAROFF_BUFFER_TOO_SMALL), line, rank, (long)room);
    expect(needed == wanted || !wanted, line, rank, (long)needed);
    expect(kept(text_block, room, fits ? needed : 0), "beside the reply", rank, (long)room);
    return needed;
}

static void try_rooms(bearoff_position at, uint8_t one, uint8_t other, size_t count, long rank) {
    const size_t rooms[] = {BEAROFF_RESULTS - 1, count, count - 1};
    for (size_t i = 0; i < sizeof rooms / sizeof *rooms; i++)
        list(at, one, other, rooms[i], count, rank);
    const uint8_t *on = at.points;
    char line[64];
    snprintf(line, sizeof line, "moves %d,%d,%d,%d,%d,%d %d%d", on[0], on[1], on[2], on[3], on[4],
             on[5], one, other);
    size_t needed = answer(line, BEAROFF_REPLY, 0, rank);
    expect(needed <= BEAROFF_REPLY, "the room for a reply", rank, (long)needed);
    const size_t sizes[] = {BEAROFF_REPLY - 1, needed, needed - 1};
    for (size_t i = 0; i < sizeof sizes / sizeof *sizes; i++) answer(line, sizes[i], needed, rank);
    if (needed > most_bytes) most_bytes = needed;
}

int main(int count, char **words) {
    FILE *file = count == 3 ? fopen(words[1], "rb") : 0;
    uint32_t step = file ? (uint32_t)atoi(words[2]) : 0;
    if (step < 1) return 2;
    size_t length = fread(bytes, 1, sizeof bytes, file), needed;
    uint8_t line[BEAROFF_LINE];
    fclose(file);
    if (bearoff_open(&database, bytes, length, line, sizeof line, &needed)) return 2;
    bearoff_facts about;
    if (bearoff_about(&database, &about)) return 2;
    /* the finished position, of rank 0, has no play */
    for (uint32_t rank = 1; rank < about.positions; rank += step) {
        bearoff_position at;
        if (bearoff_position_of(&database, (uint16_t)rank, &at)) return 2;
        for (uint8_t one = 1; one <= 6; one++) {
            for (uint8_t other = one; other <= 6; other++) {
                size_t told = list(at, one, other, BEAROFF_RESULTS, 0, rank);
                expect(told && told <= BEAROFF_RESULTS, "the room for results", rank, (long)told);
                if (told > LONG) try_rooms(at, one, other, told, rank);
                if (told > most_results) most_results = told;
            }
        }
    }
    printf("%zu results, %zu bytes\n", most_results, most_bytes);
    return failed;
}
