/*
 * How much stack each call takes, of a database or a board of a pip bound.
 *
 * usage: stacks database|board PIPS
 *
 * Each call is made in a thread whose stack is painted before it, about some positions and with
 * every roll. The deepest byte that is then no longer painted says how much it took, where what a
 * thread takes that does nothing is left out. Says so of each call in bytes, and ends with 1 where
 * one was not answered.
 */
#define _GNU_SOURCE
#include <pthread.h>
#include <stdio.h>
#include <stdlib.h>
#include <string.h>
#include <sys/mman.h>

#include "bearoff.h"

enum { STACK = 24 << 20, PAINT = 0xA5, LISTED = 64, POSITIONS = 12, ROLLS = 36 };
enum { OLD_BOUND = 44, BOARD_VERSION = 3 };

static uint8_t work[BEAROFF_FILE], file[BEAROFF_FILE], upgraded[BEAROFF_UPGRADE];
static uint8_t text[BEAROFF_REPLY], bound;
static size_t filled, needed;
static int failed;
static uint16_t version;
static bearoff_file opened = BEAROFF_CLOSED;

/* what the calls are asked */
typedef struct question {
    bearoff_position at, to;
    uint8_t one, other;
    char line[96];
} question;

static question questions[POSITIONS * ROLLS];
static const question *now;

/* room for what the calls answer */
static union {
    bearoff_number means[LISTED];
    bearoff_rounded epcs[LISTED];
    bearoff_facts about;
    bearoff_chance chance;
    bearoff_rounded rolls;
    bearoff_wasted wasted;
    bearoff_shares shares[LISTED];
    bearoff_position positions[LISTED];
    bearoff_recorded_play play;
    bearoff_fraction loss;
    bearoff_result results[BEAROFF_RESULTS];
    bearoff_info stand;
    bearoff_race race;
    uint64_t number;
    uint16_t half;
} told;

/* how many positions are listed at once */
static uint16_t listed(void) {
    int count = file[14] << 8 | file[15];
    return (uint16_t)(count < LISTED ? count : LISTED);
}

static const uint8_t *line_now(void) { return (const uint8_t *)now->line; }

/* a call of a name */
#define CALL(name, answer) \
    static uint32_t call_##name(void) { return (uint32_t)(answer); }

CALL(nothing, BEAROFF_OK)
CALL(build, bearoff_build(version, bound, work, version == BOARD_VERSION ? 0 : sizeof work, file,
                          sizeof file, &filled))
CALL(open, bearoff_open(&opened, file, filled, text, sizeof text, &needed))
CALL(upgrade, bearoff_upgrade(file, filled, work, sizeof work, upgraded, sizeof upgraded, &needed))
CALL(play_to, bearoff_play_to(&now->at, now->one, now->other, &now->to, &told.play))
CALL(about, bearoff_about(&opened, &told.about))
CALL(rank, bearoff_rank(&opened, &now->at, &told.half))
CALL(position_of, bearoff_position_of(&opened, (uint16_t)(listed() - 1), told.positions))
CALL(mean, bearoff_mean(&opened, &now->at, told.means))
CALL(rounded_mean, bearoff_rounded_mean(&opened, &now->at, &told.rolls))
CALL(epc, bearoff_epc(&opened, &now->at, told.epcs))
CALL(wastage, bearoff_wastage(&opened, &now->at, &told.wasted))
CALL(distribution, bearoff_distribution(&opened, &now->at, told.shares))
CALL(within, bearoff_within(&opened, &now->at, now->one, &told.chance))
CALL(play, bearoff_play(&opened, &now->at, now->one, now->other, &told.play))
CALL(loss, bearoff_loss(&opened, &now->at, now->one, now->other, &now->to, &told.loss))
CALL(moves, bearoff_moves(&opened, &now->at, now->one, now->other, told.results, BEAROFF_RESULTS,
                          &needed))
CALL(answer_line,
     bearoff_answer_line(&opened, line_now(), strlen(now->line), text, BEAROFF_REPLY, &needed))
CALL(listed_positions, bearoff_listed_positions(&opened, 0, told.positions, listed()))
CALL(listed_means, bearoff_listed_means(&opened, 0, told.means, listed()))
CALL(listed_epcs, bearoff_listed_epcs(&opened, 0, told.epcs, listed()))
CALL(listed_distributions, bearoff_listed_distributions(&opened, 0, told.shares, listed()))
CALL(read_position,
     bearoff_read_position((const uint8_t *)"xwQAgHY8AAAAAA:cAkFAAAAAAAE", 27, &told.race, text))
CALL(position_info, bearoff_position_info(&now->at, &told.stand))
CALL(status_text, bearoff_status_text(28, text, sizeof text, &needed))
CALL(library_version, bearoff_library_version(&told.half, &told.half, &told.half))
CALL(thousandths, !bearoff_thousandths(&told.loss, &told.number))

typedef struct row {
    const char *name;
    uint32_t (*call)(void);
    int is_once;
} row;

#define ROW(name) \
    { #name, call_##name, 0 }
#define ONCE(name) \
    { #name, call_##name, 1 }
#define END \
    { NULL, NULL, 0 }

/* the questions are made between the first rows and the others */
static const row first_made[] = {ONCE(build), ONCE(open), END},
                 asked_then[] = {ONCE(upgrade),
                                 ROW(about),
                                 ROW(rank),
                                 ROW(position_of),
                                 ROW(mean),
                                 ROW(rounded_mean),
                                 ROW(epc),
                                 ROW(wastage),
                                 ROW(distribution),
                                 ROW(within),
                                 ROW(play),
                                 ROW(moves),
                                 ROW(play_to),
                                 ROW(loss),
                                 ROW(thousandths),
                                 ROW(answer_line),
                                 ROW(listed_positions),
                                 ROW(listed_means),
                                 ROW(listed_epcs),
                                 ROW(listed_distributions),
                                 ROW(read_position),
                                 ROW(position_info),
                                 ROW(status_text),
                                 ROW(library_version),
                                 END};

/* makes a call, with each question where it is asked one */
static void *make_calls(void *of) {
    const row *made = (const row *)of;
    int count = made->is_once ? 1 : POSITIONS * ROLLS;
    for (now = questions; now < questions + count; now++) failed |= made->call() != BEAROFF_OK;
    return NULL;
}

/* how deep a thread went that makes a call, on a stack of its own */
static size_t depth_of(const row *made, uint8_t *stack) {
    pthread_attr_t attributes;
    pthread_t thread;
    size_t clean = 0;
    memset(stack, PAINT, STACK);
    pthread_attr_init(&attributes);
    if (pthread_attr_setstack(&attributes, stack, STACK) ||
        pthread_create(&thread, &attributes, make_calls, (void *)made) ||
        pthread_join(thread, NULL))
        exit(2);
    while (clean < STACK && stack[clean] == PAINT) clean++;
    return STACK - clean;
}

static void tell(const row *made, uint8_t *stack) {
    const row nothing = ROW(nothing);
    for (; made->name; made++) {
        if (made->call == call_upgrade && version > 1) continue;
        int failed_before = failed;
        size_t depth = depth_of(made, stack), without = depth_of(&nothing, stack);
        if (failed && !failed_before) fprintf(stderr, "stacks: %s\n", made->name);
        printf("%s %zu\n", made->name, depth > without ? depth - without : 0);
    }
}

/* a position of at most so many pips, with a checker at least */
static bearoff_position some_position(uint64_t *state) {
    bearoff_position at = {{0, 0, 0, 0, 0, 0}};
    for (int left = bound, checkers = 0; checkers < 15; checkers++) {
        *state = *state * 6364136223846793005u + 1442695040888963407u;
        int point = 1 + (int)(*state >> 33) % 6;
        if (point > left) point = 1;
        if (point > left) break;
        at.points[point - 1]++;
        left -= point;
    }
    return at;
}

/* some positions with every roll, where it leads, and a line of the longest kind */
static void make_questions(void) {
    uint64_t state = 1;
    for (int i = 0; i < POSITIONS; i++) {
        bearoff_position at = some_position(&state);
        for (int roll = 0; roll < ROLLS; roll++) {
            question *asked = &questions[ROLLS * i + roll];
            asked->at = at;
            asked->one = (uint8_t)(1 + roll % 6);
            asked->other = (uint8_t)(1 + roll / 6);
            bearoff_play(&opened, &at, asked->one, asked->other, &told.play);
            asked->to = told.play.to;
            const uint8_t *on = at.points;
            snprintf(asked->line, sizeof asked->line,
                     roll == 35 ? "dist %d,%d,%d,%d,%d,%d" : "moves %d,%d,%d,%d,%d,%d %d%d", on[0],
                     on[1], on[2], on[3], on[4], on[5], asked->one, asked->other);
        }
    }
}

int main(int count, char **words) {
    if (count != 3) return 2;
    bound = (uint8_t)atoi(words[2]);
    version = !strcmp(words[1], "board") ? BOARD_VERSION : bound > OLD_BOUND ? 2 : 1;
    uint8_t *stack =
        (uint8_t *)mmap(0, STACK, PROT_READ | PROT_WRITE, MAP_PRIVATE | MAP_ANONYMOUS, -1, 0);
    if (stack == MAP_FAILED) return 2;
    tell(first_made, stack);
    if (failed) return 1;
    make_questions();
    tell(asked_then, stack);
    return failed;
}
