/*
 * A room that is too small by one byte is too small, and one of exactly the size of the file is
 * enough: for bearoff_build and each bound of a database, and some of a board file, which takes no
 * room to work in, and for bearoff_upgrade and each bound of a file of version 1. What was built
 * is opened by bearoff_open, and a file with a wrong byte is refused, each of 3 pips among them.
 *
 * usage: rooms [STEP]       each bound, or each STEPth from the greatest down to 20
 *
 * Where a room is too small the status is BEAROFF_BUFFER_TOO_SMALL, and the room for the file and
 * the count stay as they were. All rooms stand between guards.
 */
#include <stdio.h>
#include <stdlib.h>
#include <string.h>

#include "bearoff.h"

enum { GUARD = 64, MARK = 0xA5, MOST = BEAROFF_FILE, GREATEST = 58, OLD_BOUND = 44 };
enum { BOARD = 3, GREATEST_OF_BOARD = 90, BOARD_STEP = 41 };

static uint8_t work_block[GUARD + MOST + GUARD], room_block[GUARD + MOST + GUARD], built[MOST],
    upgraded[MOST];
static uint8_t *const work = work_block + GUARD, *const room = room_block + GUARD;
static int failed, step = 1;

static void expect(int holds, const char *what, long bound, long number) {
    if (!holds) {
        fprintf(stderr, "rooms: %s, bound %ld (%ld)\n", what, bound, number);
        failed = 1;
    }
}

static int is_marked(const uint8_t *from, size_t size) {
    return !size || (from[0] == MARK && !memcmp(from, from + 1, size - 1));
}

/* one call with rooms of these sizes: the build of a version and a bound, or the upgrade of a file
 * that was built */
static uint32_t call_with(int version, int bound, size_t old_length, size_t work_length,
                          size_t room_length, size_t *filled) {
    memset(work - GUARD, MARK, GUARD + work_length + GUARD);
    memset(room - GUARD, MARK, GUARD + room_length + GUARD);
    *filled = MARK;
    uint32_t status = old_length ? bearoff_upgrade(built, old_length, work, work_length, room,
                                                   room_length, filled)
                                 : bearoff_build((uint16_t)version, (uint8_t)bound, work,
                                                 work_length, room, room_length, filled);
    expect(is_marked(work - GUARD, GUARD) && is_marked(work + work_length, GUARD),
           "beside the work room", bound, status);
    expect(is_marked(room - GUARD, GUARD) && is_marked(room + room_length, GUARD),
           "beside the room", bound, status);
    if (status != BEAROFF_OK) {
        expect(is_marked(room, room_length) && *filled == MARK, "left alone", bound, (long)status);
    }
    return status;
}

/* all sizes about that of the file, which is told, and the bytes that come */
static size_t try_rooms(int version, int bound, size_t old_length, uint8_t *file) {
    size_t size, filled, least = version == BOARD ? 0 : 1;
    if (call_with(version, bound, old_length, MOST * least, MOST, &size) != BEAROFF_OK ||
        size > MOST) {
        expect(0, "the most room", bound, (long)old_length);
        return 0;
    }
    expect(is_marked(room + size, MOST - size), "behind the file", bound, (long)size);
    memcpy(file, room, size);
    expect(call_with(version, bound, old_length, size * least, size, &filled) == BEAROFF_OK &&
               filled == size && !memcmp(room, file, size),
           "exactly enough", bound, (long)size);
    if (least)
        expect(call_with(version, bound, old_length, size - 1, size, &filled) ==
                   BEAROFF_BUFFER_TOO_SMALL,
               "a work room too small", bound, (long)size);
    expect(call_with(version, bound, old_length, size * least, size - 1, &filled) ==
               BEAROFF_BUFFER_TOO_SMALL,
           "a room too small", bound, (long)size);
    return size;
}

/* what the file that was built is refused for */
static uint32_t open_built(size_t size) {
    static bearoff_file database;
    uint8_t line[BEAROFF_LINE];
    size_t needed;
    return bearoff_open(&database, built, size, line, sizeof line, &needed);
}

/* the whole file, and it with one bit changed: in the last share, or, of 3 pips, in each byte in
 * turn */
static void try_openings(int bound, size_t size) {
    expect(open_built(size) == BEAROFF_OK, "the file that was built", bound, (long)size);
    for (size_t place = bound == 3 ? 0 : size - 1; place < size; place++) {
        built[place] ^= 1;
        expect(open_built(size) >= BEAROFF_TOO_SHORT, "a wrong byte", bound, (long)place);
        built[place] ^= 1;
    }
}

static void try_all(void) {
    size_t filled;
    for (int bound = GREATEST; bound >= 0; bound -= bound > 20 ? step : 1) {
        size_t size = try_rooms(bound > OLD_BOUND ? 2 : 1, bound, 0, built);
        if (bound == 58) expect(size == 15060844, "the size", bound, (long)size);
        if (bound == 44) expect(size == 11209796, "the size", bound, (long)size);
        if (bound == 8) expect(size == 32 + 426 * 64, "the size", bound, (long)size);
        if (!size) continue;
        try_openings(bound, size);
        if (bound > 44) {
            expect(call_with(2, bound, size, MOST, MOST, &filled) == BEAROFF_NOT_OLD,
                   "the upgrade of version 2", bound, 0);
        } else {
            size_t new_size = try_rooms(1, bound, size, upgraded);
            if (bound == 44)
                expect(new_size == BEAROFF_UPGRADE, "the size of the upgrade", bound,
                       (long)new_size);
        }
    }
    for (int bound = GREATEST_OF_BOARD; bound >= 0; bound -= BOARD_STEP * step)
        try_openings(bound, try_rooms(BOARD, bound, 0, built));
    for (int bound = GREATEST + 1; bound < 256; bound++) {
        expect(call_with(2, bound, 0, 64, 64, &filled) == BEAROFF_OVER_BOUND, "over the bound",
               bound, 2);
        expect(bound <= GREATEST_OF_BOARD ||
                   call_with(BOARD, bound, 0, 0, 0, &filled) == BEAROFF_OVER_BOUND,
               "over the bound", bound, BOARD);
    }
}

int main(int count, char **words) {
    if (count > 1) step = atoi(words[1]);
    if (step < 1) return 2;
    try_all();
    return failed;
}
