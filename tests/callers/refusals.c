/*
 * Each refusal of the library gives its status, and leaves alone what the caller lends but for
 * what the header says.
 *
 * usage: refusals FILE       a right database of 8 pips
 *
 * Each struct and buffer stands between guards, and the bytes of a file in a block of their own,
 * so that a checker of memory sees a step beside them. It is C and C++ both.
 */
#include <stdio.h>
#include <stdlib.h>
#include <string.h>

#include "bearoff.h"

static int failed;

static void expect(int holds, const char *what, long number) {
    if (!holds) {
        fprintf(stderr, "refusals: %s (%ld)\n", what, number);
        failed = 1;
    }
}

enum { GUARD = 64, MARK = 0xA5 };

/* a block of bytes of MARK between guards of the same */
static uint8_t *guarded(size_t size) {
    uint8_t *block = (uint8_t *)malloc(size + 2 * GUARD);
    if (!block) exit(1);
    memset(block, MARK, size + 2 * GUARD);
    return block + GUARD;
}

static int is_marked(const uint8_t *from, size_t size) {
    for (size_t i = 0; i < size; i++)
        if (from[i] != MARK) return 0;
    return 1;
}

static int guards_stand(const void *item, size_t size) {
    const uint8_t *bytes = (const uint8_t *)item;
    return is_marked(bytes - GUARD, GUARD) && is_marked(bytes + size, GUARD);
}

static int untouched(const void *item, size_t size) {
    return guards_stand(item, size) && is_marked((const uint8_t *)item, size);
}

static void let_go(void *item) { free((uint8_t *)item - GUARD); }

/* every query of one position, roll and result: the statuses, and what stays as it was */
typedef struct statuses {
    uint32_t numbers, play, loss;
} statuses;

static void ask(const bearoff_file *database, bearoff_position at, uint8_t one, uint8_t other,
                bearoff_position to, statuses wanted, const char *what) {
    static const size_t sizes[] = {
        sizeof(bearoff_number),  sizeof(bearoff_rounded),       sizeof(bearoff_shares),
        sizeof(bearoff_rounded), sizeof(bearoff_wasted),        sizeof(bearoff_chance),
        sizeof(uint16_t),        sizeof(bearoff_recorded_play), 64 * sizeof(bearoff_result),
        sizeof(size_t),          sizeof(bearoff_fraction)};
    enum { ROOMS = sizeof sizes / sizeof *sizes, NUMBERS = 7, LOSS = ROOMS - 1 };
    void *lent[ROOMS];
    for (int i = 0; i < ROOMS; i++) lent[i] = guarded(sizes[i]);
    bearoff_result *results = (bearoff_result *)lent[8];
    uint32_t moves = bearoff_moves(database, &at, one, other, results, 64, (size_t *)lent[9]);
    const uint32_t told[ROOMS] = {
        bearoff_mean(database, &at, (bearoff_number *)lent[0]),
        bearoff_epc(database, &at, (bearoff_rounded *)lent[1]),
        bearoff_distribution(database, &at, (bearoff_shares *)lent[2]),
        bearoff_rounded_mean(database, &at, (bearoff_rounded *)lent[3]),
        bearoff_wastage(database, &at, (bearoff_wasted *)lent[4]),
        bearoff_within(database, &at, one, (bearoff_chance *)lent[5]),
        bearoff_rank(database, &at, (uint16_t *)lent[6]),
        bearoff_play(database, &at, one, other, (bearoff_recorded_play *)lent[7]),
        moves,
        moves,
        bearoff_loss(database, &at, one, other, &to, (bearoff_fraction *)lent[LOSS])};
    for (int i = 0; i < ROOMS; i++) {
        uint32_t status = i < NUMBERS ? wanted.numbers : i < LOSS ? wanted.play : wanted.loss;
        expect(told[i] == status, what, i);
        expect(status ? untouched(lent[i], sizes[i]) : guards_stand(lent[i], sizes[i]), what,
               20 + i);
        let_go(lent[i]);
    }
}

/* the calls that list so many from a rank on, and what stays as it was where they are refused */
static void list(const bearoff_file *database, uint16_t first, size_t count, uint32_t wanted,
                 const char *what) {
    static const size_t sizes[] = {sizeof(bearoff_position), sizeof(bearoff_number),
                                   sizeof(bearoff_rounded), sizeof(bearoff_shares)};
    for (size_t call = 0; call < sizeof sizes / sizeof *sizes; call++) {
        size_t size = count <= 64 ? count * sizes[call] : 0;
        void *room = guarded(size);
        uint32_t status =
            call == 0 ? bearoff_listed_positions(database, first, (bearoff_position *)room, count)
            : call == 1 ? bearoff_listed_means(database, first, (bearoff_number *)room, count)
            : call == 2
                ? bearoff_listed_epcs(database, first, (bearoff_rounded *)room, count)
                : bearoff_listed_distributions(database, first, (bearoff_shares *)room, count);
        expect(status == wanted && guards_stand(room, size), what, (long)call);
        expect((wanted || !size) == untouched(room, size), what, 10 + (long)call);
        let_go(room);
    }
    bearoff_position *at = (bearoff_position *)guarded(sizeof *at);
    uint32_t status = count == 1 ? bearoff_position_of(database, first, at) : wanted;
    expect(status == wanted && guards_stand(at, sizeof *at), what, 20);
    expect(!wanted || untouched(at, sizeof *at), what, 21);
    let_go(at);
}

/* the calls that ask no database: a play that leads to a position, and what a position stands at
 */
static void lead(bearoff_position at, uint8_t one, uint8_t other, bearoff_position to,
                 uint32_t wanted, const char *what) {
    bearoff_recorded_play *play = (bearoff_recorded_play *)guarded(sizeof *play);
    expect(bearoff_play_to(&at, one, other, &to, play) == wanted, what, one);
    expect(wanted ? untouched(play, sizeof *play) : guards_stand(play, sizeof *play), what, other);
    let_go(play);
}

static void stand(bearoff_position at, uint32_t wanted, const char *what) {
    bearoff_info *standing = (bearoff_info *)guarded(sizeof *standing);
    expect(bearoff_position_info(&at, standing) == wanted, what, 1);
    expect(
        wanted ? untouched(standing, sizeof *standing) : guards_stand(standing, sizeof *standing),
        what, 2);
    let_go(standing);
}

typedef unsigned __int128 number;

/* a number of three words times another one, and one more */
static bearoff_number times(bearoff_number of, uint64_t factor, uint64_t more) {
    for (int word = 2; word >= 0; word--) {
        number product = (number)of.words[word] * factor + more;
        of.words[word] = (uint64_t)product;
        more = (uint64_t)(product >> 64);
    }
    return of;
}

/* a fraction in thousandths, or that it can't be told, which is -1 */
static void round_off(bearoff_number numerator, bearoff_number denominator, int wanted,
                      const char *what) {
    bearoff_fraction fraction = {numerator, denominator};
    uint64_t *told = (uint64_t *)guarded(sizeof *told);
    bool is_told = bearoff_thousandths(&fraction, told);
    expect(is_told == (wanted >= 0) && guards_stand(told, sizeof *told), what, wanted);
    expect(is_told ? *told == (uint64_t)wanted : untouched(told, sizeof *told), what, (long)*told);
    let_go(told);
}

/* a fraction is at most 180, and its denominator at most 6 * 36^33 */
static void try_thousandths(void) {
    bearoff_number zero = {{0}}, one = {{0, 0, 1}}, power = one, whole, most;
    bearoff_number greatest = {{0, UINT64_MAX, UINT64_MAX}};
    for (int k = 0; k < 30; k++) power = times(power, 36, 0);
    whole = times(power, 36 * 36 * 36, 0);
    most = times(whole, 6, 0);
    round_off(zero, one, 0, "nothing");
    round_off(one, times(one, 2000, 0), 1, "a half of a thousandth");
    round_off(one, times(one, 2001, 0), 0, "less than a half of one");
    round_off(times(one, 180, 0), one, 180000, "the most");
    round_off(times(one, 181, 0), one, -1, "more than 180");
    round_off(greatest, one, -1, "the greatest numerator");
    round_off(greatest, greatest, 1000, "the greatest numbers of two words");
    round_off(one, zero, -1, "no denominator");
    round_off(zero, zero, -1, "nothing of nothing");
    round_off(whole, whole, 1000, "one");
    round_off(zero, most, 0, "nothing of the greatest denominator");
    round_off(most, most, 1000, "all of it");
    round_off(zero, times(most, 1, 1), -1, "a greater denominator");
    round_off(times(most, 180, 0), most, 180000, "the most of it");
    round_off(times(most, 180, 1), most, -1, "more than that");
    round_off(power, times(power, 2000, 0), 1, "a half in long numbers");
    round_off(power, times(power, 2000, 1), 0, "less than a half in these");
    round_off(times(power, 3, 0), times(power, 2000, 0), 2, "a thousandth and a half");
    round_off(times(power, 359999, 0), times(power, 2000, 0), 180000, "a half less than the most");
    for (int k = 0; k <= 180; k++)
        round_off(times(whole, (uint64_t)k, 0), whole, 1000 * k, "so many wholes");
}

/* a room has a text and nothing behind it, or nothing where it is too small, and beside it stands
 * how long the text is */
static void take_text(uint8_t *buffer, size_t room, size_t *needed, const char *text,
                      const char *what) {
    size_t count = strlen(text), written = count <= room ? count : 0;
    expect(*needed == count, what, (long)*needed);
    expect(!memcmp(buffer, text, written) && is_marked(buffer + written, room - written), what,
           -1);
    expect(guards_stand(buffer, room) && guards_stand(needed, sizeof *needed), what, -3);
    let_go(buffer);
    let_go(needed);
}

/* opens bytes with so much room for the line */
static uint32_t open_with(bearoff_file *database, const uint8_t *bytes, size_t length, size_t room,
                          const char *line, const char *what) {
    uint8_t *buffer = guarded(room);
    size_t *needed = (size_t *)guarded(sizeof *needed);
    uint32_t status = bearoff_open(database, bytes, length, buffer, room, needed);
    expect(guards_stand(database, sizeof *database), what, -4);
    take_text(buffer, room, needed, line, what);
    return status;
}

/* answers a line with so much room, and gives the status */
static uint32_t answer_with(const bearoff_file *database, const char *line, size_t room,
                            const char *reply, const char *what) {
    uint8_t *buffer = guarded(room);
    size_t *needed = (size_t *)guarded(sizeof *needed);
    uint32_t status =
        bearoff_answer_line(database, (const uint8_t *)line, strlen(line), buffer, room, needed);
    if (reply) {
        expect(status == (strlen(reply) <= room ? BEAROFF_OK : BEAROFF_BUFFER_TOO_SMALL), what,
               status);
        take_text(buffer, room, needed, reply, what);
    } else {
        expect(untouched(buffer, room) && untouched(needed, sizeof *needed), what, (long)room);
        let_go(buffer);
        let_go(needed);
    }
    return status;
}

/* the text of a status, with each room up to the most */
static void say(uint32_t status, const char *wanted) {
    for (size_t room = 0; room <= BEAROFF_STATUS_TEXT; room++) {
        uint8_t *buffer = guarded(room);
        size_t *needed = (size_t *)guarded(sizeof *needed);
        uint32_t told = bearoff_status_text(status, buffer, room, needed);
        expect(told == (strlen(wanted) <= room ? BEAROFF_OK : BEAROFF_BUFFER_TOO_SMALL), wanted,
               (long)room);
        take_text(buffer, room, needed, wanted, wanted);
    }
}

/* what a text is as a position, told character by character: the status, and the counts where that
 * is BEAROFF_OK */
static uint32_t read_counts(const char *text, size_t length, bearoff_position *position) {
    unsigned counts[6] = {0, 0, 0, 0, 0, 0}, sum = 0;
    size_t point = 0, digits = 0, i = 0;
    while (length && memchr(" \t\n\f\r", text[length - 1], 5)) length--;
    while (i < length && memchr(" \t\n\f\r", text[i], 5)) i++;
    for (; i < length; i++) {
        if (text[i] == ',') {
            if (!digits || ++point > 5) return BEAROFF_BAD_TEXT;
            digits = 0;
        } else {
            const char *digit = (const char *)memchr("0123456789", text[i], 10);
            if (!digit || ++digits > 3 || (digits > 1 && !counts[point])) return BEAROFF_BAD_TEXT;
            counts[point] = 10 * counts[point] + (unsigned)(text[i] - '0');
        }
    }
    if (!digits || point != 5) return BEAROFF_BAD_TEXT;
    for (int i = 0; i < 6; i++) sum += counts[i];
    if (sum > 15) return BEAROFF_TOO_MANY;
    for (int i = 0; i < 6; i++) position->points[i] = (uint8_t)counts[i];
    return BEAROFF_OK;
}

/* reads a text, which lies in a block of exactly its length; the status */
static uint32_t read_text(const char *text, size_t length) {
    uint8_t *bytes = (uint8_t *)malloc(length ? length : 1), place = 255;
    bearoff_race *race = (bearoff_race *)guarded(sizeof *race), wanted;
    if (!bytes) exit(1);
    memcpy(bytes, text, length);
    memset(&wanted, 0, sizeof wanted);
    uint32_t status = bearoff_read_position(bytes, length, race, &place);
    expect(status == read_counts(text, length, &wanted.mine), text, (long)length);
    expect(status ? untouched(race, sizeof *race) : !memcmp(race, &wanted, sizeof wanted), text,
           -1);
    expect(guards_stand(race, sizeof *race) && !memcmp(bytes, text, length), text, -2);
    expect(place == (status == BEAROFF_TOO_MANY), text, -3);
    let_go(race);
    free(bytes);
    return status;
}

/* a text that has this status, and its front of each length; then with each byte at each place */
static void state(const char *text, size_t length, uint32_t wanted) {
    char changed[64] = {0};
    expect(read_text(text, length) == wanted, text, wanted);
    for (size_t front = 0; front < length; front++) read_text(text, front);
    memcpy(changed, text, length);
    for (size_t place = 0; place < length; place++) {
        for (int byte = 0; byte < 256; byte++) {
            changed[place] = (char)byte;
            read_text(changed, length);
        }
        changed[place] = text[place];
    }
}

/* the same of each text of a list, with a bar between two */
static void state_each(const char *texts, uint32_t wanted) {
    for (size_t size = strcspn(texts, "|");; size = strcspn(texts += size + 1, "|")) {
        state(texts, size, wanted);
        if (!texts[size]) return;
    }
}

typedef struct damage {
    size_t place;
    uint8_t change;
    uint32_t status;
    const char *line;
} damage;

int main(int count, char **words) {
    static const damage damages[] = {
        {0, 1, BEAROFF_BAD_MAGIC, "header bad-magic"},
        {9, 0x80, BEAROFF_BAD_VERSION, "header bad-version"},
        {11, 0x80, BEAROFF_BAD_BOUND, "header bad-bound"},
        {15, 1, BEAROFF_BAD_COUNT, "header bad-count"},
        {19, 1, BEAROFF_BAD_RECORD_BYTES, "header bad-record-bytes"},
        {31, 1, BEAROFF_BAD_RESERVED, "header bad-reserved"},
        {32 + 426 + 15, 1, BEAROFF_BAD_MEAN, "mean rank 1"},
        {32 + 426 + 17, 1, BEAROFF_BAD_PLAY, "play rank 1 roll 0"},
        {32 + 426 + 58 + 15, 1, BEAROFF_BAD_SPREAD, "spread rank 1 k 0"},
    };
    static const struct {
        uint32_t status;
        const char *text;
    } said[] = {
        {BEAROFF_OK, "success"},
        {BEAROFF_NOT_OPEN, "the file is not open"},
        {BEAROFF_BAD_ROLL, "a die is not 1 to 6"},
        {BEAROFF_TOO_MANY, "a position has more than 15 checkers"},
        {BEAROFF_OVER_BOUND, "the pips exceed the bound, or the bound exceeds the limit"},
        {BEAROFF_FINISHED, "no checker is left to move"},
        {BEAROFF_NOT_LEGAL, "the roll doesn't lead to that position"},
        {BEAROFF_CHANGED, "the bytes changed since they were verified"},
        {BEAROFF_BUFFER_TOO_SMALL, "the buffer is too small"},
        {BEAROFF_NOT_OLD, "the file to upgrade already has version 2"},
        {BEAROFF_NO_RANK, "no position has that rank, or the range is too long"},
        {BEAROFF_BAD_TEXT, "the text is not a position"},
        {BEAROFF_TOO_SHORT, "fewer than 32 bytes"},
        {BEAROFF_BAD_MAGIC, "the bytes don't begin with EPCTABLE"},
        {BEAROFF_BAD_VERSION, "the version is not 1 or 2, or that of a board file not 3"},
        {BEAROFF_BAD_BOUND, "the bound exceeds its version's limit of 44, 58 or 90"},
        {BEAROFF_BAD_COUNT, "the count doesn't match the bound"},
        {BEAROFF_BAD_RECORD_BYTES, "the record size doesn't match the version, 426 or 0"},
        {BEAROFF_BAD_RESERVED, "a reserved byte is not zero"},
        {BEAROFF_BAD_LENGTH, "more or fewer bytes than the header says"},
        {BEAROFF_BAD_PLAY, "a recorded play is not legal"},
        {BEAROFF_NOT_LEAST, "a recorded play doesn't reach the least mean"},
        {BEAROFF_BAD_MEAN, "a recorded mean is not that of the recorded plays"},
        {BEAROFF_BAD_SPREAD, "a share or count is not that of the recorded plays"},
        {28, "the bytes changed while they were read"},
        {BEAROFF_SAME_POINT, "both players have a checker on one point"},
        {BEAROFF_ON_BAR, "a checker is on the bar"},
        {BEAROFF_OUTSIDE, "the player on roll has a checker outside the home board"},
        {BEAROFF_CONTACT, "an opponent's checker is behind one of the player on roll"},
        {BEAROFF_OTHER_OUTSIDE, "the opponent has a checker outside the home board"},
    };
    static const uint32_t unknown[] = {
        12,  13,  14,  15,  29,  30,    31,    37,          255,         256,
        257, 260, 267, 284, 512, 65536, 65538, 0x80000000u, 0x80000010u, 0xFFFFFFFFu};
    bearoff_position none = {{0, 0, 0, 0, 0, 0}}, six = {{0, 0, 0, 0, 0, 1}},
                     five = {{0, 0, 0, 0, 1, 0}};
    bearoff_position many = {{1, 15, 0, 0, 0, 0}}, most = {{255, 255, 255, 255, 255, 255}},
                     nine = {{0, 0, 1, 0, 0, 1}};
    bearoff_position ace = {{1, 0, 0, 0, 0, 0}}, fours = {{0, 0, 0, 2, 0, 0}},
                     after_21 = {{1, 0, 0, 1, 0, 0}};
    statuses closed = {BEAROFF_NOT_OPEN, BEAROFF_NOT_OPEN, BEAROFF_NOT_OPEN},
             not_legal = {BEAROFF_OK, BEAROFF_OK, BEAROFF_NOT_LEGAL},
             to_many = {BEAROFF_OK, BEAROFF_OK, BEAROFF_TOO_MANY},
             bad_roll = {BEAROFF_OK, BEAROFF_BAD_ROLL, BEAROFF_BAD_ROLL},
             finished = {BEAROFF_OK, BEAROFF_FINISHED, BEAROFF_FINISHED},
             of_many = {BEAROFF_TOO_MANY, BEAROFF_TOO_MANY, BEAROFF_TOO_MANY},
             over_bound = {BEAROFF_OVER_BOUND, BEAROFF_OVER_BOUND, BEAROFF_OVER_BOUND};
    FILE *from = count == 2 ? fopen(words[1], "rb") : 0;
    if (!from) return 2;
    uint8_t *bytes = (uint8_t *)malloc(32 + 426 * 64);
    size_t length = bytes ? fread(bytes, 1, 32 + 426 * 64, from) : 0;
    fclose(from);
    expect(length == 32 + 426 * 64, "the file", (long)length);
    bearoff_file *database = (bearoff_file *)guarded(sizeof *database);

    /* the library is of the header's version */
    uint16_t major = MARK, minor = MARK, patch = MARK;
    char release[24];
    expect(bearoff_library_version(&major, &minor, &patch) == BEAROFF_OK, "the library's version",
           0);
    snprintf(release, sizeof release, "%u.%u.%u", major, minor, patch);
    expect(strcmp(release, BEAROFF_VERSION) == 0, release, 0);

    /* a struct of zeros is not open */
    bearoff_facts about, unsaid;
    memset(&about, MARK, sizeof about);
    unsaid = about;
    memset(database, 0, sizeof *database);
    expect(bearoff_about(database, &about) == BEAROFF_NOT_OPEN &&
               !memcmp(&about, &unsaid, sizeof about),
           "zeros, about", about.version);
    expect(answer_with(database, "mean 0,0,0,0,0,1", 64, 0, "zeros, line") == BEAROFF_NOT_OPEN,
           "zeros, line", 0);
    expect(answer_with(database, "nothing", 64, 0, "zeros, bad line") == BEAROFF_NOT_OPEN,
           "zeros, bad line", 0);
    ask(database, six, 2, 1, five, closed, "zeros");
    ask(database, most, 0, 9, most, closed, "zeros and all else wrong");
    list(database, 0, 1, BEAROFF_NOT_OPEN, "zeros, lists");

    /* nor is one that was made closed */
    bearoff_file made = BEAROFF_CLOSED;
    memcpy(database, &made, sizeof made);
    expect(bearoff_about(database, &about) == BEAROFF_NOT_OPEN &&
               !memcmp(&about, &unsaid, sizeof about),
           "closed, about", about.version);
    ask(database, six, 2, 1, five, closed, "closed");
    list(database, 0, 0, BEAROFF_NOT_OPEN, "closed, lists of none");
    list(database, 0, 1, BEAROFF_NOT_OPEN, "closed, lists");
    list(database, 65535, 2, BEAROFF_NOT_OPEN, "closed, lists beyond");
    expect(answer_with(database, "mean 0,0,0,0,0,1", 64, 0, "closed, line") == BEAROFF_NOT_OPEN,
           "closed, line", 0);

    /* a right file */
    expect(open_with(database, bytes, length, 0, "", "open") == BEAROFF_OK, "open", 0);
    expect(bearoff_about(database, &about) == BEAROFF_OK && about.version == 1 &&
               about.bound == 8 && about.rolls == 22 && about.positions == 64,
           "about", about.version);
    ask(database, six, 2, 1, ace, not_legal, "not legal");
    ask(database, six, 0, 1, ace, bad_roll, "die 0");
    ask(database, six, 1, 7, ace, bad_roll, "die 7");
    ask(database, six, 255, 255, ace, bad_roll, "dice 255");
    ask(database, none, 2, 1, none, finished, "finished");
    ask(database, many, 2, 1, none, of_many, "16 checkers");
    ask(database, most, 2, 1, none, of_many, "1530 checkers");
    ask(database, nine, 2, 1, none, over_bound, "9 pips");
    ask(database, six, 2, 1, many, to_many, "to 16 checkers");

    /* lists: to the last of the 64 positions, and never beyond it */
    list(database, 0, 64, BEAROFF_OK, "all");
    list(database, 0, 1, BEAROFF_OK, "the first");
    list(database, 63, 1, BEAROFF_OK, "the last");
    list(database, 64, 0, BEAROFF_OK, "none behind the last");
    list(database, 0, 0, BEAROFF_OK, "none");
    list(database, 64, 1, BEAROFF_NO_RANK, "one behind the last");
    list(database, 65, 0, BEAROFF_NO_RANK, "none beyond");
    list(database, 1, 64, BEAROFF_NO_RANK, "one too many");
    list(database, 65535, 1, BEAROFF_NO_RANK, "the greatest rank");
    list(database, 65535, 2, BEAROFF_NO_RANK, "past the greatest rank");
    list(database, 1, 65535, BEAROFF_NO_RANK, "a sum of 65,536");

    /* what asks no database: each refusal, and the first of two */
    lead(fours, 1, 2, after_21, BEAROFF_OK, "to where 4/2 2/1 leads");
    lead(none, 2, 1, none, BEAROFF_OK, "without a checker");
    lead(none, 2, 1, six, BEAROFF_NOT_LEGAL, "from none");
    lead(six, 2, 1, none, BEAROFF_NOT_LEGAL, "to none");
    lead(six, 2, 1, six, BEAROFF_NOT_LEGAL, "to where it was");
    lead(six, 0, 1, five, BEAROFF_BAD_ROLL, "die 0");
    lead(six, 1, 7, five, BEAROFF_BAD_ROLL, "die 7");
    lead(most, 255, 255, most, BEAROFF_BAD_ROLL, "dice 255 and 1530 checkers");
    lead(many, 2, 1, six, BEAROFF_TOO_MANY, "from 16 checkers");
    lead(six, 2, 1, many, BEAROFF_TOO_MANY, "to 16 checkers");
    stand(none, BEAROFF_OK, "no checker");
    stand(many, BEAROFF_TOO_MANY, "16 checkers");
    stand(most, BEAROFF_TOO_MANY, "1530 checkers");

    /* what each status says, and each of some numbers that are none */
    for (size_t i = 0; i < sizeof said / sizeof *said; i++) say(said[i].status, said[i].text);
    for (size_t i = 0; i < sizeof unknown / sizeof *unknown; i++)
        say(unknown[i], "unknown status");

    /* texts of positions, and one with a zero behind it */
    state_each(
        "0,0,0,0,0,0|0,0,0,2,0,1|15,0,0,0,0,0|0,0,0,0,0,15|1,2,3,4,5,0|"
        " 0,0,0,0,0,1|0,0,0,0,0,1 |0,0,0,0,0,1\r|0,0,0,0,0,1\012",
        BEAROFF_OK);
    /* 256 is 0 in a byte, 271 is 15 there, and 128 twice is 256 in all */
    state_each(
        "16,0,0,0,0,0|0,0,0,0,0,16|1,2,3,4,5,1|255,0,0,0,0,0|256,0,0,0,0,0|0,0,0,0,0,271|"
        "128,128,0,0,0,0|999,999,999,999,999,999",
        BEAROFF_TOO_MANY);
    /* the last has a digit of Arabic */
    state_each(
        "|,|,,,,,|six|0,0,0,0,0|0,0,0,0,0,|,0,0,0,0,0|0,0,,0,0,0|0,0,0,0,0,0,|0,0,0,0,0,0,0|"
        "00,0,0,0,0,0|0,0,0,0,0,01|0,0,0,0,0,015|1000,0,0,0,0,0|65536,0,0,0,0,0|"
        "0,0,0,0,0,4294967296|0, 0,0,0,0,1|+0,0,0,0,0,1|0,0,0,0,0,-1|0,0,0,0,0,0x1|0;0;0;0;0;1|"
        "0,0,0,0,0,\xd9\xa1",
        BEAROFF_BAD_TEXT);
    state("0,0,0,0,0,1", 12, BEAROFF_BAD_TEXT);
    /* behind a byte order mark */
    state("\xef\xbb\xbf\060,0,0,0,0,1", 14, BEAROFF_BAD_TEXT);

    try_thousandths();

    /* the room for the reply to a line */
    for (size_t room = 0; room < 64; room++) {
        answer_with(database, "mean 0,0,0,0,0,1", room, "mean 5/4 epc 245/24 10.208", "mean line");
        answer_with(database, "play 0,0,0,2,0,0 12", room, "play 4/2 2/1 to 1,0,0,1,0,0",
                    "play line");
        answer_with(database, "moves 0,0,0,2,0,0 21", room,
                    "moves 1,0,0,1,0,0:0/1 0,1,1,0,0,0:1/9", "moves line");
        answer_with(database, "moves 0,0,0,0,0,0 21", room, "error finished", "finished line");
        answer_with(database, "mean 0,0,0,0,0,1\r", room, "error bad-line", "a line with its end");
        answer_with(database, "", room, "error bad-line", "no line");
        answer_with(database, "rank 0,0,1,0,0,1", room, "error over-bound", "line over the bound");
    }

    /* the room for results */
    size_t *told = (size_t *)guarded(sizeof *told);
    for (size_t room = 0; room <= 3; room++) {
        bearoff_result *results = (bearoff_result *)guarded(room * sizeof *results);
        uint32_t status = bearoff_moves(database, &fours, 2, 1, results, room, told);
        expect(status == (room < 2 ? BEAROFF_BUFFER_TOO_SMALL : BEAROFF_OK) && *told == 2,
               "results", (long)room);
        expect(guards_stand(results, room * sizeof *results) && guards_stand(told, sizeof *told),
               "results", (long)room);
        if (room < 2)
            expect(is_marked((uint8_t *)results, room * sizeof *results), "short results",
                   (long)room);
        if (room > 2)
            expect(is_marked((uint8_t *)&results[2], sizeof *results), "results", (long)room);
        let_go(results);
    }
    let_go(told);

    /* each refused file closes the database, tells its line where it has room, and is told apart
     */
    for (size_t i = 0; i < sizeof damages / sizeof *damages; i++) {
        damage one = damages[i];
        expect(open_with(database, bytes, length, 0, "", "open") == BEAROFF_OK, "open again",
               (long)i);
        bytes[one.place] ^= one.change;
        for (size_t room = strlen(one.line) - 1; room <= BEAROFF_LINE; room++) {
            expect(open_with(database, bytes, length, room, one.line, one.line) == one.status,
                   one.line, (long)room);
        }
        ask(database, six, 2, 1, five, closed, one.line);
        list(database, 0, 1, BEAROFF_NOT_OPEN, one.line);
        expect(answer_with(database, "rank 0,0,0,0,0,1", 64, 0, one.line) == BEAROFF_NOT_OPEN,
               one.line, -5);
        bytes[one.place] ^= one.change;
    }
    for (size_t short_by = 1; short_by <= length; short_by += 426) {
        uint8_t *part = (uint8_t *)malloc(length - short_by + 1);
        if (!part) return 1;
        memcpy(part, bytes, length - short_by);
        part = (uint8_t *)realloc(part, length - short_by ? length - short_by : 1);
        int front = length - short_by >= 32;
        uint32_t status = open_with(database, part, length - short_by, BEAROFF_LINE,
                                    front ? "header bad-length" : "header too-short", "a part");
        expect(status == (uint32_t)(front ? BEAROFF_BAD_LENGTH : BEAROFF_TOO_SHORT), "a part",
               (long)short_by);
        free(part);
    }
    expect(open_with(database, bytes, 31, BEAROFF_LINE, "header too-short", "31 bytes") ==
               BEAROFF_TOO_SHORT,
           "31 bytes", 0);
    expect(open_with(database, bytes, 0, BEAROFF_LINE, "header too-short", "no bytes") ==
               BEAROFF_TOO_SHORT,
           "no bytes", 0);

    /* an upgrade, with rooms that are just enough or not, and of itself */
    size_t *filled = (size_t *)guarded(sizeof *filled);
    for (size_t lack = 0; lack < 4; lack++) {
        uint8_t *work = guarded(7696 - (lack & 1)), *room = guarded(7696 - (lack >> 1));
        uint32_t status = bearoff_upgrade(bytes, length, work, 7696 - (lack & 1), room,
                                          7696 - (lack >> 1), filled);
        expect(status == (lack ? BEAROFF_BUFFER_TOO_SMALL : BEAROFF_OK), "upgrade", (long)lack);
        expect(guards_stand(work, 7696 - (lack & 1)) && guards_stand(room, 7696 - (lack >> 1)),
               "upgrade", -1);
        expect(lack ? untouched(room, 7696 - (lack >> 1)) : *filled == 7696, "upgrade", -2);
        if (!lack) {
            expect(open_with(database, room, 7696, 0, "", "upgraded") == BEAROFF_OK, "upgraded",
                   0);
            expect(bearoff_about(database, &about) == BEAROFF_OK && about.version == 2,
                   "upgraded, version", about.version);
            expect(bearoff_upgrade(room, 7696, work, 7696, work, 0, filled) == BEAROFF_NOT_OLD,
                   "upgrade again", 0);
        }
        let_go(work);
        let_go(room);
    }
    expect(bearoff_upgrade(bytes, 31, bytes, 0, bytes, 0, filled) == BEAROFF_TOO_SHORT,
           "upgrade of 31 bytes", 0);
    let_go(filled);

    /* one number that the caller changes after it was checked, against the rule: what stands on it
     * is refused, and nothing that was lent is changed */
    expect(open_with(database, bytes, length, 0, "", "open") == BEAROFF_OK, "open once more", 0);
    bearoff_position dearer = {{0, 1, 1, 0, 0, 0}};
    uint16_t fours_at = 0, dearer_at = 0;
    expect(bearoff_rank(database, &fours, &fours_at) == BEAROFF_OK && fours_at,
           "the rank of two fours", fours_at);
    expect(bearoff_rank(database, &dearer, &dearer_at) == BEAROFF_OK && dearer_at,
           "the rank of a result", dearer_at);
    const struct {
        size_t place, size;
        uint8_t byte;
        uint32_t play;
        const char *what;
    } changes[] = {
        {32 + 426 * (size_t)dearer_at, 16, 0, BEAROFF_OK,
         "a mean less than that after the recorded play"},
        {32 + 426 * (size_t)dearer_at, 16, 255, BEAROFF_OK, "a mean over 22 rolls after a play"},
        {32 + 426 * (size_t)fours_at + 18, 2, 0, BEAROFF_CHANGED,
         "a play to where the roll doesn't lead"},
    };
    for (size_t i = 0; i < sizeof changes / sizeof *changes; i++) {
        uint8_t kept[16], *changed = bytes + changes[i].place;
        bearoff_recorded_play *told_play = (bearoff_recorded_play *)guarded(sizeof *told_play);
        bearoff_fraction *told_loss = (bearoff_fraction *)guarded(sizeof *told_loss);
        bearoff_result *told_results = (bearoff_result *)guarded(2 * sizeof *told_results);
        size_t *told_count = (size_t *)guarded(sizeof *told_count);
        memcpy(kept, changed, changes[i].size);
        memset(changed, changes[i].byte, changes[i].size);
        expect(bearoff_play(database, &fours, 2, 1, told_play) == changes[i].play, changes[i].what,
               1);
        expect(!changes[i].play || untouched(told_play, sizeof *told_play), changes[i].what, 2);
        expect(bearoff_loss(database, &fours, 2, 1, &dearer, told_loss) == BEAROFF_CHANGED,
               changes[i].what, 3);
        expect(
            bearoff_moves(database, &fours, 2, 1, told_results, 2, told_count) == BEAROFF_CHANGED,
            changes[i].what, 4);
        expect(untouched(told_loss, sizeof *told_loss) &&
                   untouched(told_results, 2 * sizeof *told_results) &&
                   untouched(told_count, sizeof *told_count),
               changes[i].what, 5);
        expect(answer_with(database, "loss 0,0,0,2,0,0 21 0,1,1,0,0,0", 64, 0, changes[i].what) ==
                   BEAROFF_CHANGED,
               changes[i].what, 6);
        memcpy(changed, kept, changes[i].size);
        let_go(told_play);
        let_go(told_loss);
        let_go(told_results);
        let_go(told_count);
    }

    /* bytes that the caller changes after they were checked, against the rule: no call steps
     * outside them */
    expect(open_with(database, bytes, length, 0, "", "open") == BEAROFF_OK, "open at last", 0);
    uint8_t record[426];
    memcpy(record, bytes + 32 + 426 * 19, sizeof record);
    memset(bytes + 32 + 426 * 19, 0xFF, 426);
    bearoff_number mean;
    bearoff_rounded pips;
    bearoff_shares shares;
    bearoff_recorded_play play;
    bearoff_fraction loss;
    bearoff_result results[4];
    bearoff_position three = {{0, 0, 1, 0, 0, 0}};
    size_t told_last = 0;
    bearoff_rounded rolls;
    bearoff_wasted wasted;
    bearoff_number means[20];
    bearoff_rounded epcs[20];
    bearoff_chance within;
    memset(means, MARK, sizeof means);
    memset(epcs, MARK, sizeof epcs);
    memset(&within, MARK, sizeof within);
    list(database, 0, 19, BEAROFF_OK, "changed behind a list");
    expect(bearoff_listed_means(database, 0, means, 20) == BEAROFF_CHANGED, "changed", 7);
    expect(bearoff_listed_epcs(database, 0, epcs, 20) == BEAROFF_CHANGED, "changed", 8);
    expect(is_marked((uint8_t *)means, sizeof means) && is_marked((uint8_t *)epcs, sizeof epcs),
           "changed", 9);
    expect(bearoff_rounded_mean(database, &six, &rolls) == BEAROFF_CHANGED, "changed", 10);
    expect(bearoff_wastage(database, &six, &wasted) == BEAROFF_CHANGED, "changed", 11);
    expect(bearoff_within(database, &six, 0, &within) == BEAROFF_CHANGED, "changed", 12);
    expect(is_marked((uint8_t *)&within, sizeof within), "changed", 13);
    expect(bearoff_mean(database, &six, &mean) == BEAROFF_CHANGED, "changed", 1);
    expect(bearoff_epc(database, &six, &pips) == BEAROFF_CHANGED, "changed", 2);
    expect(bearoff_distribution(database, &six, &shares) == BEAROFF_CHANGED, "changed", 3);
    expect(bearoff_play(database, &six, 2, 1, &play) == BEAROFF_CHANGED, "changed", 4);
    expect(bearoff_loss(database, &six, 2, 1, &three, &loss) == BEAROFF_CHANGED, "changed", 5);
    expect(bearoff_moves(database, &six, 2, 1, results, 4, &told_last) == BEAROFF_CHANGED,
           "changed", 6);
    static const char *const lines[] = {"mean 0,0,0,0,0,1", "dist 0,0,0,0,0,1",
                                        "play 0,0,0,0,0,1 21", "loss 0,0,0,0,0,1 21 0,0,1,0,0,0"};
    for (size_t i = 0; i < sizeof lines / sizeof *lines; i++) {
        expect(answer_with(database, lines[i], 64, 0, lines[i]) == BEAROFF_CHANGED, "changed line",
               (long)i);
    }
    expect(answer_with(database, "rank 0,0,0,0,0,1", 64, "rank 19", "changed") == BEAROFF_OK,
           "changed rank", 0);
    expect(answer_with(database, "moves 0,0,0,0,0,1 21", 64, 0, "changed") == BEAROFF_CHANGED,
           "moves", 0);
    memcpy(bytes + 32 + 426 * 19, record, sizeof record);
    expect(answer_with(database, "moves 0,0,0,0,0,1 21", 64, "moves 0,0,1,0,0,0:0/1", "again") ==
               BEAROFF_OK,
           "moves", 1);
    memset(bytes + 32 + 426 * 4, 0xFF, 426);
    expect(
        answer_with(database, "moves 0,0,0,0,0,1 21", 64, 0, "changed moves") == BEAROFF_CHANGED,
        "changed moves", 0);

    let_go(database);
    free(bytes);
    return failed;
}
