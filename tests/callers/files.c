/*
 * What the calls say of each position of a file, against each other and against its lines.
 *
 * usage: files FILE STEP       a right database or board file
 *
 * It asks each position everything, in a thread with a stack of 128 KB: its rank, its mean, its
 * shares, and with every STEPth roll its plays, their losses and its lines; then the whole tables.
 * Each number has to be what the others make it, and each list in the order of its line. The
 * opening is tried on bytes with a fault too, and each call on a file that is not open, and on one
 * whose bytes were changed since they were opened. Says how many answers were looked at, and ends
 * with 1 where one was wrong.
 */
#define _POSIX_C_SOURCE 200809L
#include <pthread.h>
#include <stdio.h>
#include <stdlib.h>
#include <string.h>

#include "bearoff.h"

enum { STACK = 128 << 10, MOST = BEAROFF_FILE + 1, RANKS = 54264, MARK = 0xA5, SHOWN = 20 };

static uint8_t bytes[MOST];
static size_t length;
static int step, is_board;
static uint64_t compared, failed;
static bearoff_file file = BEAROFF_CLOSED;
static bearoff_facts about;

static void expect(int holds, const char *what, long number) {
    compared++;
    if (holds) return;
    if (failed++ < SHOWN) fprintf(stderr, "files: %s (%ld)\n", what, number);
}

static void expect_same(const void *one, const void *other, size_t size, const char *what,
                        long number) {
    expect(!memcmp(one, other, size), what, number);
}

/* a double of what is so many thousandths, rounded */
static void expect_near(double number, uint64_t thousandths, const char *what, long at) {
    double off = number * 1000 - (double)thousandths;
    expect(off < 0.501 && off > -0.501, what, at);
}

static bearoff_number sum_of(bearoff_number one, bearoff_number other) {
    bearoff_number sum = {{0}};
    uint64_t carry = 0;
    for (int word = 2; word >= 0; word--) {
        sum.words[word] = one.words[word] + other.words[word] + carry;
        carry = carry ? sum.words[word] <= one.words[word] : sum.words[word] < one.words[word];
    }
    return sum;
}

/* 36 to the power of the most rolls */
static bearoff_number whole(void) {
    bearoff_number power = {{0, 0, 1}};
    for (int k = 0; k < about.rolls; k++) {
        bearoff_number times = power;
        for (int n = 1; n < 36; n++) times = sum_of(times, power);
        power = times;
    }
    return power;
}

static int pips_of(const bearoff_position *at) {
    int pips = 0;
    for (int point = 0; point < 6; point++) pips += (point + 1) * at->points[point];
    return pips;
}

/* the numbers of a position */
static void ask_numbers(const bearoff_position *at, long rank) {
    bearoff_number mean, sum = {{0}};
    bearoff_rounded rolls, epc;
    bearoff_shares shares;
    bearoff_wasted wasted;
    bearoff_chance chance;
    uint64_t told = 0;
    expect(bearoff_mean(&file, at, &mean) == BEAROFF_OK, "mean", rank);
    expect(bearoff_rounded_mean(&file, at, &rolls) == BEAROFF_OK, "rounded_mean", rank);
    expect(bearoff_epc(&file, at, &epc) == BEAROFF_OK, "epc", rank);
    expect(bearoff_wastage(&file, at, &wasted) == BEAROFF_OK, "wastage", rank);
    expect(bearoff_distribution(&file, at, &shares) == BEAROFF_OK, "distribution", rank);
    int64_t more = (int64_t)epc.thousandths - 1000 * (int64_t)pips_of(at);
    expect(
        wasted.is_below == (more < 0) && wasted.thousandths == (uint64_t)(more < 0 ? -more : more),
        "the wastage", rank);
    expect(bearoff_thousandths(&epc.exact, &told) && told == epc.thousandths,
           "the effective pip count in thousandths", rank);
    expect(bearoff_thousandths(&rolls.exact, &told) && told == rolls.thousandths,
           "the mean in thousandths", rank);
    bearoff_fraction part = {{{0}}, whole()};
    part.numerator = mean;
    expect(bearoff_thousandths(&part, &told) && told == rolls.thousandths,
           "the mean over the whole", rank);
    double near = bearoff_fraction_as_double(rolls.exact) / bearoff_as_double(&file, mean);
    expect(rank == 0 || (near > 1 - 1e-14 && near < 1 + 1e-14), "the mean as a double", rank);
    expect_near(bearoff_as_double(&file, mean), rolls.thousandths, "the mean as a double", rank);
    expect_near(bearoff_fraction_as_double(epc.exact), epc.thousandths, "as a double", rank);
    double gap = bearoff_variance(&file, &shares);
    for (int k = 0; k < 34; k++) gap -= k * k * bearoff_as_double(&file, shares.shares[k]);
    gap += bearoff_as_double(&file, mean) * bearoff_as_double(&file, mean);
    expect(gap > -1e-12 && gap < 1e-12, "the variance", rank);
    for (int k = 0; k < 36; k++) {
        if (k < 34) sum = sum_of(sum, shares.shares[k]);
        part.numerator = sum;
        expect(bearoff_within(&file, at, (uint8_t)k, &chance) == BEAROFF_OK &&
                   !memcmp(&chance.numerator, &sum, sizeof sum) &&
                   bearoff_thousandths(&part, &told) && told == chance.thousandths,
               "within", rank);
    }
    bearoff_number all = whole();
    expect(bearoff_within(&file, at, 255, &chance) == BEAROFF_OK && chance.thousandths == 1000 &&
               !memcmp(&chance.numerator, &all, sizeof all),
           "within any", rank);
}

static uint8_t reply[BEAROFF_REPLY + 1];

static const char *ask_line(const char *line, long rank) {
    size_t size = strlen(line), needed = 0;
    expect(bearoff_answer_line(&file, (const uint8_t *)line, size, reply, sizeof reply - 1,
                               &needed) == BEAROFF_OK,
           line, rank);
    reply[needed] = 0;
    return (const char *)reply;
}

/* what a roll is played with, and what each play costs */
static void ask_roll(const bearoff_position *at, uint8_t one, uint8_t other, long rank) {
    static bearoff_result results[BEAROFF_RESULTS];
    char line[96], place[64];
    const uint8_t *on = at->points;
    bearoff_recorded_play play, first;
    bearoff_fraction loss;
    size_t count = 0, less = 0;
    uint64_t told = 0;
    memset(&play, 0, sizeof play);
    memset(&first, 0, sizeof first);
    uint32_t status = bearoff_play(&file, at, one, other, &play);
    if (rank == 0) {
        expect(status == BEAROFF_FINISHED, "nothing to play", rank);
        return;
    }
    expect(status == BEAROFF_OK, "play", rank);
    expect(bearoff_play_to(at, other, one, &play.to, &first) == BEAROFF_OK &&
               !memcmp(&play, &first, sizeof play),
           "the first play to the recorded position", rank);
    expect(bearoff_moves(&file, at, one, other, results, BEAROFF_RESULTS, &count) == BEAROFF_OK,
           "moves", rank);
    expect(bearoff_moves(&file, at, one, other, results, count - 1, &less) ==
                   BEAROFF_BUFFER_TOO_SMALL &&
               less == count,
           "moves without room", rank);
    snprintf(line, sizeof line, "moves %d,%d,%d,%d,%d,%d %d%d", on[0], on[1], on[2], on[3], on[4],
             on[5], one, other);
    const char *listed = ask_line(line, rank);
    for (size_t i = 0; i < count && i < BEAROFF_RESULTS; i++) {
        const uint8_t *to = results[i].to.points;
        expect(bearoff_loss(&file, at, one, other, &results[i].to, &loss) == BEAROFF_OK, "loss",
               rank);
        expect_same(&results[i].loss, &loss, sizeof loss, "the loss of one", rank);
        expect(bearoff_thousandths(&loss, &told), "a loss in thousandths", rank);
        expect_near(bearoff_fraction_as_double(loss), told, "a loss as a double", rank);
        /* in the order of the line */
        snprintf(place, sizeof place, " %d,%d,%d,%d,%d,%d:", to[0], to[1], to[2], to[3], to[4],
                 to[5]);
        const char *next = strstr(listed, place);
        expect(next != NULL, "the order", rank);
        if (next) listed = next + 1;
    }
    expect(bearoff_loss(&file, at, one, other, at, &loss) == BEAROFF_NOT_LEGAL, "no play", rank);
    snprintf(line, sizeof line, "play %d,%d,%d,%d,%d,%d %d%d", on[0], on[1], on[2], on[3], on[4],
             on[5], one, other);
    ask_line(line, rank);
}

static bearoff_position positions[RANKS + 1];
static bearoff_number means[RANKS + 1];
static bearoff_rounded epcs[RANKS + 1];
static bearoff_shares shares[RANKS + 1];

/* the whole tables, each element as the call for one position tells it */
static void ask_tables(void) {
    size_t count = about.positions;
    memset(&positions[count], MARK, sizeof positions[0]);
    expect(bearoff_listed_positions(&file, 0, positions, count) == BEAROFF_OK &&
               bearoff_listed_means(&file, 0, means, count) == BEAROFF_OK &&
               bearoff_listed_epcs(&file, 0, epcs, count) == BEAROFF_OK &&
               bearoff_listed_distributions(&file, 0, shares, count) == BEAROFF_OK,
           "the tables", (long)count);
    expect(positions[count].points[0] == MARK, "behind the table", (long)count);
    /* a part of one, which ends with it */
    bearoff_number last[2];
    expect(
        count < 2 || (bearoff_listed_means(&file, (uint16_t)(count - 2), last, 2) == BEAROFF_OK &&
                      !memcmp(last, &means[count - 2], sizeof last)),
        "the end of a table", (long)count);
    expect(bearoff_listed_positions(&file, 1, positions, count) == BEAROFF_NO_RANK &&
               bearoff_listed_means(&file, 1, means, count) == BEAROFF_NO_RANK &&
               bearoff_listed_epcs(&file, 1, epcs, count) == BEAROFF_NO_RANK &&
               bearoff_listed_distributions(&file, 1, shares, count) == BEAROFF_NO_RANK,
           "one too many", (long)count);
    for (size_t rank = 0; rank < count; rank++) {
        bearoff_position at;
        bearoff_number mean;
        bearoff_rounded epc;
        bearoff_shares spread;
        expect(bearoff_position_of(&file, (uint16_t)rank, &at) == BEAROFF_OK &&
                   bearoff_mean(&file, &at, &mean) == BEAROFF_OK &&
                   bearoff_epc(&file, &at, &epc) == BEAROFF_OK &&
                   bearoff_distribution(&file, &at, &spread) == BEAROFF_OK,
               "an element", (long)rank);
        expect_same(&positions[rank], &at, sizeof at, "a position listed", (long)rank);
        expect_same(&means[rank], &mean, sizeof mean, "a mean listed", (long)rank);
        expect_same(&epcs[rank], &epc, sizeof epc, "an effective pip count listed", (long)rank);
        expect_same(&shares[rank], &spread, sizeof spread, "shares listed", (long)rank);
    }
}

/* every position, by its rank */
static void *ask_all(void *nothing) {
    static const char *const words[] = {"mean", "dist", "rank"};
    int roll = 0;
    for (long rank = 0; rank < (long)about.positions; rank++) {
        bearoff_position at;
        uint16_t told = 0;
        char line[96];
        expect(bearoff_position_of(&file, (uint16_t)rank, &at) == BEAROFF_OK &&
                   bearoff_rank(&file, &at, &told) == BEAROFF_OK && told == rank,
               "the rank", rank);
        for (int i = 0; i < 3; i++) {
            snprintf(line, sizeof line, "%s %d,%d,%d,%d,%d,%d", words[i], at.points[0],
                     at.points[1], at.points[2], at.points[3], at.points[4], at.points[5]);
            const char *answer = ask_line(line, rank);
            if (i == 2) expect(atol(answer + 5) == rank, "the rank in words", rank);
        }
        ask_numbers(&at, rank);
        for (uint8_t one = 1; one <= 6; one++)
            for (uint8_t other = 1; other <= one; other++)
                if (roll++ % step == 0) ask_roll(&at, one, other, rank);
    }
    ask_tables();
    return nothing;
}

/* each call about a position that is refused, and of a file that is not open each other call, too;
 * what is lent stays as it was */
static void try_refused(bearoff_position at, uint32_t status) {
    static struct {
        bearoff_facts about;
        bearoff_position at;
        bearoff_number mean;
        bearoff_rounded rolls;
        bearoff_rounded pips;
        bearoff_wasted wasted;
        bearoff_shares shares;
        bearoff_recorded_play play;
        bearoff_fraction loss;
        bearoff_result results[2];
        bearoff_chance chance;
        uint16_t rank;
        size_t count;
    } lent;
    const uint8_t *marks = (const uint8_t *)&lent;
    memset(&lent, MARK, sizeof lent);
    const uint32_t told[] = {
        bearoff_rank(&file, &at, &lent.rank),
        bearoff_mean(&file, &at, &lent.mean),
        bearoff_rounded_mean(&file, &at, &lent.rolls),
        bearoff_epc(&file, &at, &lent.pips),
        bearoff_wastage(&file, &at, &lent.wasted),
        bearoff_distribution(&file, &at, &lent.shares),
        bearoff_within(&file, &at, 1, &lent.chance),
        bearoff_play(&file, &at, 2, 1, &lent.play),
        bearoff_loss(&file, &at, 2, 1, &at, &lent.loss),
        bearoff_moves(&file, &at, 2, 1, lent.results, 2, &lent.count),
        file.is_open ? status : bearoff_about(&file, &lent.about),
        file.is_open ? status : bearoff_position_of(&file, 0, &lent.at),
        file.is_open ? status
                     : bearoff_answer_line(&file, (const uint8_t *)"", 0, (uint8_t *)lent.results,
                                           100, &lent.count),
        file.is_open ? status : bearoff_listed_positions(&file, 0, &lent.at, 1),
        file.is_open ? status : bearoff_listed_means(&file, 0, &lent.mean, 1),
        file.is_open ? status : bearoff_listed_epcs(&file, 0, &lent.pips, 1),
        file.is_open ? status : bearoff_listed_distributions(&file, 0, &lent.shares, 1),
    };
    for (size_t i = 0; i < sizeof told / sizeof *told; i++)
        expect(told[i] == status, "refused", (long)i);
    expect(!memcmp(marks, marks + 1, sizeof lent - 1), "left alone", status);
}

/* the status of an opening, its line and its struct */
static uint32_t open_front(size_t size) {
    uint8_t line[BEAROFF_LINE];
    size_t needed = 0;
    memset(line, MARK, sizeof line);
    uint32_t status = bearoff_open(&file, bytes, size, line, sizeof line, &needed);
    expect(needed <= sizeof line && (status == BEAROFF_OK) == !needed, "the line", status);
    for (size_t i = 0; i < sizeof line; i++)
        expect((line[i] == MARK) == (i >= needed), "the bytes of the line", (long)i);
    expect(file.is_open == (status == BEAROFF_OK), "whether it is open", status);
    return status;
}

/* bytes with a fault of each kind that one byte or the length makes */
static void try_openings(void) {
    static const size_t places[] = {0, 11, 15, 19, 31, 55, 70};
    for (size_t i = 0; i < sizeof places / sizeof *places; i++) {
        bytes[places[i]] ^= 1;
        expect(open_front(length) != BEAROFF_OK, "a wrong byte", (long)places[i]);
        bytes[places[i]] ^= 1;
    }
    bytes[length - 1] ^= 1;
    expect(open_front(length) != BEAROFF_OK, "a wrong last byte", 0);
    bytes[length - 1] ^= 1;
    for (size_t size = 0; size <= 32; size++)
        expect(open_front(size) != BEAROFF_OK, "a front", (long)size);
    expect(open_front(length - 1) == BEAROFF_BAD_LENGTH, "a byte too few", 0);
    uint8_t version = bytes[9];
    for (int other = 0; other < 8; other++) {
        bytes[9] = (uint8_t)other;
        /* a version of none is that of no board file either */
        if (other != version) expect(open_front(length) != BEAROFF_OK, "another version", other);
    }
    bytes[9] = version;
    bytes[8] ^= 1;
    expect(open_front(length) == BEAROFF_BAD_VERSION, "a version over 255", 0);
    bytes[8] ^= 1;
}

/* bytes of which the second half is changed after they were opened, against the rule: of a
 * position there each call says so, and leaves alone what is lent, also the means before it */
static void try_changed(void) {
    static struct {
        bearoff_number mean;
        bearoff_rounded rolls;
        bearoff_rounded pips;
        bearoff_wasted wasted;
        bearoff_shares shares;
        bearoff_chance chance;
        bearoff_recorded_play play;
        bearoff_fraction loss;
        bearoff_result results[BEAROFF_RESULTS];
        uint8_t text[BEAROFF_REPLY];
        size_t count, needed;
    } lent;
    static const char *const words[] = {"mean", "dist", "play", "moves"};
    const uint8_t *marks = (const uint8_t *)&lent;
    size_t half = 32 + (length - 32) / 2, size = about.positions;
    bearoff_position at;
    char line[96];
    expect(bearoff_position_of(&file, (uint16_t)(size - 1), &at) == BEAROFF_OK &&
               bearoff_moves(&file, &at, 2, 1, lent.results, BEAROFF_RESULTS, &lent.count) ==
                   BEAROFF_OK,
           "the last position", (long)size);
    bearoff_position to = lent.results[0].to;
    memset(&lent, MARK, sizeof lent);
    memset(means, MARK, sizeof means);
    memset(epcs, MARK, sizeof epcs);
    memset(shares, MARK, sizeof shares);
    memset(bytes + half, 0xFF, length - half);
    uint32_t told[] = {
        bearoff_mean(&file, &at, &lent.mean),
        bearoff_rounded_mean(&file, &at, &lent.rolls),
        bearoff_epc(&file, &at, &lent.pips),
        bearoff_wastage(&file, &at, &lent.wasted),
        bearoff_distribution(&file, &at, &lent.shares),
        bearoff_within(&file, &at, 1, &lent.chance),
        bearoff_play(&file, &at, 2, 1, &lent.play),
        bearoff_loss(&file, &at, 2, 1, &to, &lent.loss),
        bearoff_moves(&file, &at, 2, 1, lent.results, BEAROFF_RESULTS, &lent.count),
        bearoff_listed_means(&file, 0, means, size),
        bearoff_listed_epcs(&file, 0, epcs, size),
        bearoff_listed_distributions(&file, 0, shares, size),
    };
    for (size_t i = 0; i < sizeof told / sizeof *told; i++)
        expect(told[i] == BEAROFF_CHANGED, "changed", (long)i);
    for (int i = 0; i < 4; i++) {
        int count = snprintf(line, sizeof line, "%s %d,%d,%d,%d,%d,%d%s", words[i], at.points[0],
                             at.points[1], at.points[2], at.points[3], at.points[4], at.points[5],
                             i < 2 ? "" : " 21");
        expect(bearoff_answer_line(&file, (const uint8_t *)line, (size_t)count, lent.text,
                                   sizeof lent.text, &lent.needed) == BEAROFF_CHANGED,
               line, i);
    }
    expect(!memcmp(marks, marks + 1, sizeof lent - 1), "changed, and left alone", 0);
    expect(!memcmp(means, (uint8_t *)means + 1, sizeof means - 1) && *(uint8_t *)means == MARK &&
               !memcmp(epcs, (uint8_t *)epcs + 1, sizeof epcs - 1) && *(uint8_t *)epcs == MARK &&
               !memcmp(shares, (uint8_t *)shares + 1, sizeof shares - 1) &&
               *(uint8_t *)shares == MARK,
           "tables of changed bytes, left alone", 0);
}

int main(int count, char **words) {
    const bearoff_position none = {{0}}, many = {{0, 0, 0, 0, 0, 16}},
                           most = {{0, 0, 0, 0, 0, 15}};
    pthread_attr_t attributes;
    pthread_t thread;
    FILE *from = count == 3 ? fopen(words[1], "rb") : NULL;
    length = from ? fread(bytes, 1, sizeof bytes, from) : 0;
    if (!length || (step = atoi(words[2])) < 1) return 2;
    fclose(from);
    is_board = bytes[9] == 3;
    try_refused(none, BEAROFF_NOT_OPEN);
    try_openings();
    try_refused(none, BEAROFF_NOT_OPEN);
    expect(open_front(length) == BEAROFF_OK, "the file", 0);
    expect(bearoff_about(&file, &about) == BEAROFF_OK, "about", 0);
    expect(about.version == bytes[9] && about.bound == bytes[11] &&
               about.positions == (uint32_t)(bytes[14] << 8 | bytes[15]) &&
               about.rolls == (is_board ? 33 : 22),
           "what it says of itself", about.version);
    try_refused(many, BEAROFF_TOO_MANY);
    if (about.bound < 90) try_refused(most, BEAROFF_OVER_BOUND);
    pthread_attr_init(&attributes);
    if (pthread_attr_setstacksize(&attributes, STACK) ||
        pthread_create(&thread, &attributes, ask_all, NULL) || pthread_join(thread, NULL))
        return 2;
    try_changed();
    printf("%llu answers compared, %llu of them differ\n", (unsigned long long)compared,
           (unsigned long long)failed);
    return failed != 0;
}
