/*
 * Bytes that another thread changes while calls read them: each call ends with a status, 0 to 28,
 * never by a signal, and writes nothing but what it is lent.
 *
 * usage: races FILE ROUNDS [SEED]       a right database or board file
 *
 * Two threads open the bytes, ROUNDS times each, upgrade them where they are a database, and make
 * each call that reads them, with what was opened before. One thread writes single bytes
 * meanwhile: most get their right value back at once, the others when all bytes are made right
 * again. Says of each call how often each status came, and ends with 1 where one is over 28, where
 * a call wrote beside what it was lent, or where the bytes were not changed in time: no opening
 * was refused, or none was accepted.
 */
#define _POSIX_C_SOURCE 200809L
#include <pthread.h>
#include <stdatomic.h>
#include <stdio.h>
#include <stdlib.h>
#include <string.h>

#include "bearoff.h"

enum { MOST_STATUS = 28, MOST_BYTES = 1 << 20, MOST_LISTED = 8, GUARD = 64, MARK = 0xA5 };
enum { CALLERS = 2, BOARD_VERSION = 3 };

static uint8_t right[MOST_BYTES], bytes[MOST_BYTES];
static size_t length;
static int version, bound, positions;
static long rounds;
static uint64_t seed = 88172645463325252u;
static bearoff_file opened = BEAROFF_CLOSED;
static atomic_bool ended;

/* the names of the calls, the opening first, in the order in which each thread makes them */
static const char *const names[] = {
    "open",         "mean",   "rounded_mean", "epc",         "wastage",
    "distribution", "within", "listed_means", "listed_epcs", "listed_distributions",
    "play",         "loss",   "moves",        "answer_line", "upgrade"};
enum { CALLS = sizeof names / sizeof *names };

/* one of the threads that call: what it counts, and room for a call, with guards about it */
typedef struct caller {
    pthread_t thread;
    uint64_t state;
    int call;
    unsigned long counts[CALLS][MOST_STATUS + 1], others, writes;
    bearoff_file file;
    uint8_t *room;
    size_t size;
} caller;

static caller callers[CALLERS];

static void fail(const char *what) {
    fprintf(stderr, "races: %s\n", what);
    exit(2);
}

/* a number that looks random */
static uint64_t next_number(uint64_t *state) {
    *state ^= *state << 13;
    *state ^= *state >> 7;
    *state ^= *state << 17;
    return *state;
}

static void *change(void *nothing) {
    uint64_t state = seed;
    volatile uint8_t *changing = bytes;
    while (!ended) {
        uint64_t number = next_number(&state), place = (number >> 16) % length;
        changing[place] = (uint8_t)number;
        if (number >> 8 & 15)
            changing[place] = right[place];
        else if (number >> 12 & 1)
            memcpy(bytes, right, length);
    }
    return nothing;
}

/* room for a call */
static void *lend(caller *by, size_t size) {
    by->size = size;
    memset(by->room, MARK, GUARD);
    memset(by->room + GUARD + size, MARK, GUARD);
    return by->room + GUARD;
}

static int is_marked(const uint8_t *from) {
    return from[0] == MARK && !memcmp(from, from + 1, GUARD - 1);
}

/* what the next call left: its status, and whether it kept to its room */
static void take(caller *by, uint32_t status) {
    if (status <= MOST_STATUS)
        by->counts[by->call][status]++;
    else
        by->others++;
    by->writes += !is_marked(by->room) || !is_marked(by->room + GUARD + by->size);
    by->call++;
}

/* a position of at most so many pips as the file has */
static bearoff_position some_position(caller *by) {
    bearoff_position at = {{0, 0, 0, 0, 0, 0}};
    for (int left = bound, checkers = 0; checkers < 15; checkers++) {
        int point = 1 + (int)(next_number(&by->state) % 6);
        if (point > left) break;
        at.points[point - 1]++;
        left -= point;
    }
    return at;
}

/* a line of the query language */
static int some_line(caller *by, char *line, size_t size, bearoff_position at, bearoff_position to,
                     int one, int other) {
    static const char *const words[] = {"mean", "dist", "play", "moves", "loss"};
    const uint8_t *on = at.points, *then = to.points;
    int which = (int)(next_number(&by->state) % 5);
    int count = snprintf(line, size, "%s %d,%d,%d,%d,%d,%d", words[which], on[0], on[1], on[2],
                         on[3], on[4], on[5]);
    if (which > 1) count += snprintf(line + count, size - count, " %d%d", one, other);
    if (which > 3)
        count += snprintf(line + count, size - count, " %d,%d,%d,%d,%d,%d", then[0], then[1],
                          then[2], then[3], then[4], then[5]);
    return count;
}

/* every call that reads the bytes */
static void ask_file(caller *by, bearoff_position at, bearoff_position to, uint8_t one,
                     uint8_t other) {
    size_t needed, half = length, count = 1 + next_number(&by->state) % MOST_LISTED;
    uint16_t first = (uint16_t)(next_number(&by->state) % (uint64_t)positions);
    char line[128];
    uint8_t *text = (uint8_t *)lend(by, BEAROFF_LINE);
    take(by, bearoff_open(&by->file, bytes, length, text, BEAROFF_LINE, &needed));
    take(by, bearoff_mean(&opened, &at, (bearoff_number *)lend(by, sizeof(bearoff_number))));
    take(by,
         bearoff_rounded_mean(&opened, &at, (bearoff_rounded *)lend(by, sizeof(bearoff_rounded))));
    take(by, bearoff_epc(&opened, &at, (bearoff_rounded *)lend(by, sizeof(bearoff_rounded))));
    take(by, bearoff_wastage(&opened, &at, (bearoff_wasted *)lend(by, sizeof(bearoff_wasted))));
    take(by,
         bearoff_distribution(&opened, &at, (bearoff_shares *)lend(by, sizeof(bearoff_shares))));
    take(by,
         bearoff_within(&opened, &at, one, (bearoff_chance *)lend(by, sizeof(bearoff_chance))));
    take(by,
         bearoff_listed_means(&opened, first,
                              (bearoff_number *)lend(by, count * sizeof(bearoff_number)), count));
    take(by,
         bearoff_listed_epcs(&opened, first,
                             (bearoff_rounded *)lend(by, count * sizeof(bearoff_rounded)), count));
    take(by,
         bearoff_listed_distributions(
             &opened, first, (bearoff_shares *)lend(by, count * sizeof(bearoff_shares)), count));
    take(by, bearoff_play(&opened, &at, one, other,
                          (bearoff_recorded_play *)lend(by, sizeof(bearoff_recorded_play))));
    take(by, bearoff_loss(&opened, &at, one, other, &to,
                          (bearoff_fraction *)lend(by, sizeof(bearoff_fraction))));
    size_t size = BEAROFF_RESULTS * sizeof(bearoff_result);
    take(by, bearoff_moves(&opened, &at, one, other, (bearoff_result *)lend(by, size),
                           BEAROFF_RESULTS, &needed));
    int bytes_of_line = some_line(by, line, sizeof line, at, to, one, other);
    text = (uint8_t *)lend(by, BEAROFF_REPLY);
    take(by, bearoff_answer_line(&opened, (const uint8_t *)line, (size_t)bytes_of_line, text,
                                 BEAROFF_REPLY, &needed));
    if (version == BOARD_VERSION) return;
    text = (uint8_t *)lend(by, 2 * half);
    take(by, bearoff_upgrade(bytes, length, text, half, text + half, half, &needed));
}

static void *call(void *of) {
    caller *by = (caller *)of;
    for (long round = 0; round < rounds; round++) {
        bearoff_position at = some_position(by), to = some_position(by);
        uint64_t roll = next_number(&by->state);
        uint8_t one = (uint8_t)(1 + roll % 6), other = (uint8_t)(1 + roll / 6 % 6);
        by->call = 0;
        ask_file(by, at, to, one, other);
    }
    return of;
}

static void open_right(void) {
    uint8_t line[BEAROFF_LINE];
    size_t needed;
    if (bearoff_open(&opened, bytes, length, line, sizeof line, &needed)) fail("no right file");
}

/* how often each status came of each call; whether all is as it should be */
static int tell(void) {
    int made = version == BOARD_VERSION ? CALLS - 1 : CALLS;
    unsigned long others = 0, writes = 0, refused = 0, accepted = 0;
    for (int call_number = 0; call_number < made; call_number++) {
        printf("%s", names[call_number]);
        for (int status = 0; status <= MOST_STATUS; status++) {
            unsigned long count = 0;
            for (int i = 0; i < CALLERS; i++) count += callers[i].counts[call_number][status];
            if (count) printf(" %d:%lu", status, count);
            if (call_number == 0) *(status ? &refused : &accepted) += count;
        }
        printf("\n");
    }
    for (int i = 0; i < CALLERS; i++) others += callers[i].others, writes += callers[i].writes;
    printf("%lu other statuses, %lu writes where none may be\n", others, writes);
    return !others && !writes && refused && accepted;
}

int main(int word_count, char **words) {
    pthread_attr_t attributes;
    pthread_t changer;
    FILE *file = word_count == 3 || word_count == 4 ? fopen(words[1], "rb") : NULL;
    if (!file) fail("usage: races FILE ROUNDS [SEED]");
    length = fread(right, 1, sizeof right, file);
    fclose(file);
    rounds = atol(words[2]);
    if (word_count == 4) seed = strtoull(words[3], NULL, 10);
    memcpy(bytes, right, length);
    version = right[9];
    bound = right[11];
    positions = right[14] << 8 | right[15];
    open_right();
    size_t most = BEAROFF_RESULTS * sizeof(bearoff_result) + BEAROFF_REPLY + 2 * length;
    pthread_attr_init(&attributes);
    pthread_attr_setstacksize(&attributes, 2 * BEAROFF_STACK);
    if (pthread_create(&changer, &attributes, change, NULL)) fail("no thread");
    for (int i = 0; i < CALLERS; i++) {
        callers[i].state = seed + (uint64_t)i + 1;
        callers[i].room = (uint8_t *)malloc(GUARD + most + GUARD);
        if (!callers[i].room || pthread_create(&callers[i].thread, &attributes, call, &callers[i]))
            fail("no thread");
    }
    for (int i = 0; i < CALLERS; i++) pthread_join(callers[i].thread, NULL);
    ended = true;
    pthread_join(changer, NULL);
    return !tell();
}
