/*
 * What each call tells that could be refused for several reasons.
 *
 * usage: order FILE          a right database of 8 pips
 *
 * It reads rows of tests/refusals.txt, and writes for each the status of the calls of the
 * database, and that of the calls of a board file of 8 pips; a line where no call has such
 * arguments. What is lent is too small, or nothing, wherever the header lets it be refused. Calls
 * that are asked the same and don't agree have the status 99.
 */
#include <stdio.h>
#include <stdlib.h>
#include <string.h>

#include "bearoff.h"

enum { DIFFER = 99, NONE = 100, BOARD_VERSION = 3, OLD_BOUND = 44 };

static uint8_t file[BEAROFF_FILE], board_file[1 << 20], work[BEAROFF_FILE], room[1];
static bearoff_file files[2] = {BEAROFF_CLOSED, BEAROFF_CLOSED}, closed = BEAROFF_CLOSED;

/* the statuses of calls that have to agree, one by one */
static uint32_t told;

static void tell(uint32_t status) {
    told = told == NONE || told == status ? status : (uint32_t)DIFFER;
}

static int read_position(const char *text, bearoff_position *position) {
    int count = 0, end = 0;
    unsigned points[6];
    count = sscanf(text, "%u,%u,%u,%u,%u,%u%n", points, points + 1, points + 2, points + 3,
                   points + 4, points + 5, &end);
    for (int i = 0; i < 6 && count == 6; i++) position->points[i] = (uint8_t)points[i];
    return count == 6 && !text[end];
}

static void ask_file(const char *call, const bearoff_file *asked, bearoff_position at,
                     bearoff_position to, uint8_t one, uint8_t other, unsigned number) {
    bearoff_number mean;
    bearoff_rounded rolls;
    bearoff_rounded pips;
    bearoff_wasted wasted;
    bearoff_shares shares;
    bearoff_recorded_play play;
    bearoff_fraction loss;
    bearoff_result result;
    bearoff_position position;
    bearoff_chance chance;
    uint16_t rank;
    size_t count;
    if (!strcmp(call, "mean")) {
        tell(bearoff_mean(asked, &at, &mean));
        tell(bearoff_rounded_mean(asked, &at, &rolls));
        tell(bearoff_epc(asked, &at, &pips));
        tell(bearoff_wastage(asked, &at, &wasted));
        tell(bearoff_distribution(asked, &at, &shares));
        tell(bearoff_within(asked, &at, 3, &chance));
        tell(bearoff_rank(asked, &at, &rank));
    } else if (!strcmp(call, "play")) {
        uint32_t listed = bearoff_moves(asked, &at, one, other, &result, 0, &count);
        tell(bearoff_play(asked, &at, one, other, &play));
        if (listed != BEAROFF_BUFFER_TOO_SMALL) tell(listed);
    } else if (!strcmp(call, "loss")) {
        tell(bearoff_loss(asked, &at, one, other, &to, &loss));
    } else if (!strcmp(call, "play-to")) {
        tell(bearoff_play_to(&at, one, other, &to, &play));
    } else if (!strcmp(call, "position")) {
        tell(bearoff_position_of(asked, (uint16_t)number, &position));
    } else if (!strcmp(call, "table")) {
        static bearoff_position positions[8];
        static bearoff_number means[8];
        static bearoff_rounded epcs[8];
        static bearoff_shares spreads[8];
        tell(bearoff_listed_positions(asked, (uint16_t)number, positions, 5));
        tell(bearoff_listed_means(asked, (uint16_t)number, means, 5));
        tell(bearoff_listed_epcs(asked, (uint16_t)number, epcs, 5));
        tell(bearoff_listed_distributions(asked, (uint16_t)number, spreads, 5));
    } else if (!strcmp(call, "line")) {
        const char *line = "rank 0,0,0,0,0,1";
        tell(bearoff_answer_line(asked, (const uint8_t *)line, strlen(line), room, 0, &count));
    } else if (!strcmp(call, "build")) {
        if (asked->version == BOARD_VERSION) {
            tell(bearoff_build(3, (uint8_t)number, work, 0, room, 0, &count));
        } else {
            uint16_t version = number > OLD_BOUND ? 2 : 1;
            tell(bearoff_build(version, (uint8_t)number, work, sizeof work, room, 0, &count));
            tell(bearoff_build(version, (uint8_t)number, room, 0, work, sizeof work, &count));
        }
    }
}

int main(int count, char **words) {
    FILE *from = count == 2 ? fopen(words[1], "rb") : NULL;
    size_t length = from ? fread(file, 1, sizeof file, from) : 0, filled, needed;
    uint8_t fault[BEAROFF_LINE];
    char row[256], call[16], state[16], at[32], roll[8], to[32];
    if (bearoff_build(3, 8, work, 0, board_file, sizeof board_file, &filled) ||
        bearoff_open(&files[0], file, length, fault, sizeof fault, &needed) ||
        bearoff_open(&files[1], board_file, filled, fault, sizeof fault, &needed)) {
        fprintf(stderr, "usage: order FILE\n");
        return 2;
    }
    while (fgets(row, sizeof row, stdin)) {
        bearoff_position first = {{0}}, target = {{0}};
        if (sscanf(row, "%15s %15s %31s %7s %31s", call, state, at, roll, to) != 5) return 2;
        int is_open = strcmp(state, "closed") != 0, has_roll = strcmp(roll, "-") != 0;
        int is_read = !strchr(at, ',') || read_position(at, &first);
        is_read = is_read && (!strcmp(to, "-") || read_position(to, &target));
        is_read = is_read && (!has_roll || !strcmp(call, "table") || strlen(roll) == 2);
        uint8_t one = (uint8_t)(has_roll ? roll[0] - '0' : 0);
        uint8_t other = (uint8_t)(has_roll && roll[1] ? roll[1] - '0' : 0);
        unsigned number = (unsigned)strtoul(at, NULL, 10);
        for (int kind = 0; kind < 2; kind++) {
            told = NONE;
            if (is_read) {
                ask_file(call, is_open ? &files[kind] : &closed, first, target, one, other,
                         number);
            }
            if (kind) printf(" ");
            if (told == NONE)
                printf("-");
            else
                printf("%u", (unsigned)told);
        }
        printf("\n");
    }
    return 0;
}
