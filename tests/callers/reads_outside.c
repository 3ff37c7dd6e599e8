/*
 * No call reads or writes outside what it was lent, whatever stands in the bytes of a file after
 * they were opened; and no opening does, whatever its bytes are.
 *
 * usage: reads_outside FILE ROUNDS [SEED]       a right database or board file
 *
 * All that a call is lent lies between two pages that nobody may read or write: it begins right
 * behind the first or ends right before the second. The bytes are opened, and asked by every call.
 *
 * First the file is opened, cut at each length to 100 and about the ends of records. Then each
 * byte of the header gets each other value in turn, and, ROUNDS times, records get numbers that
 * look random; each time the bytes are opened, and what was opened before is asked about some
 * positions, of which some have to be refused, with rooms that are large enough, just large enough
 * or too small. At last the fronts are tried that are right files of small bounds once the header
 * says so. What is not open is asked too.
 *
 * Counted are the tries that a signal ended, the calls that wrote beside what they were lent, or
 * into it where they left it alone by their word, and those with a status that the header doesn't
 * give to such a call. An answer may not depend on the bytes of the header at all. Says the
 * counts, and ends with 1 where one of them isn't 0.
 */
#define _GNU_SOURCE
#include <setjmp.h>
#include <signal.h>
#include <stddef.h>
#include <stdio.h>
#include <stdlib.h>
#include <string.h>
#include <sys/mman.h>
#include <unistd.h>

#include "bearoff.h"

enum { HEADER = 32, GUARD = 64, MARK = 0xA5, ASKED = 12, LISTED = 5, SHOWN = 20, CUT = 100 };
enum { MOST_POSITIONS = 54264, MOST_PIPS = 90, FEW_PIPS = 10, FEW_BYTES = 1 << 16 };
enum { MOST_ROOM = 1 << 15, BOARD_VERSION = 3, DATABASE_REPLY = 12070 };

/* the statuses that a call may answer with, a bit for each; those of an opening by the header, and
 * by the records */
#define BIT(name) (1u << BEAROFF_##name)
static const uint32_t told_or_changed = BIT(OK) | BIT(CHANGED),
                      any_length = BIT(OK) | BIT(CHANGED) | BIT(BUFFER_TOO_SMALL),
                      header_faults = BIT(TOO_SHORT) | BIT(BAD_MAGIC) | BIT(BAD_VERSION) |
                                      BIT(BAD_BOUND) | BIT(BAD_COUNT) | BIT(BAD_RECORD_BYTES) |
                                      BIT(BAD_RESERVED) | BIT(BAD_LENGTH),
                      record_faults =
                          BIT(BAD_PLAY) | BIT(NOT_LEAST) | BIT(BAD_MEAN) | BIT(BAD_SPREAD);

/* pages between two that nobody may read or write, and what is lent of them */
typedef struct room {
    uint8_t *pages, *lent;
    size_t size, length;
} room;

/* what is asked, whether rooms of exactly the size are tried too, and the bit of the status of a
 * refusal, or 0, of the calls that are given the position alone, the roll too, a play too, a rank,
 * and the ranks from one on */
typedef struct question {
    const bearoff_position *at, *to;
    uint8_t one, other, rolls;
    uint16_t rank;
    size_t count, room;
    int is_exact;
    uint32_t of_position, of_roll, of_play, of_rank, of_ranks;
} question;

static uint8_t *right;
static size_t page, length, ends[MOST_PIPS + 1];
static int is_board, bound, counts[MOST_PIPS + 1];
static bearoff_position positions[MOST_POSITIONS];
static room bytes, handle, answer, told, from_room, to_room, line_room;
static bearoff_file opened;
static const char *now = "nothing";
static int at_end, is_closed, is_counted;
static size_t element, hole, hole_end;
static uint64_t tries, calls, changed, signals, writes, statuses, differing, digest, state;
static sigjmp_buf before_try;
static const void *volatile reached;

/* one more of what may not be */
static void fail(uint64_t *failed, const char *what, unsigned long number) {
    if (signals + writes + statuses + differing < SHOWN)
        fprintf(stderr, "reads_outside: %s: %s (%lu)\n", now, what, number);
    ++*failed;
}

static void stop_try(int number, siginfo_t *why, void *context) {
    (void)context;
    reached = why->si_addr;
    siglongjmp(before_try, number);
}

/* which signal ended a try, and how far from what was lent it came, for whoever reads it */
static void tell_signal(int number) {
    static const struct {
        const char *name;
        const room *of;
    } rows[] = {{"the bytes", &bytes},        {"the struct", &handle},
                {"the answer", &answer},      {"the count", &told},
                {"the position", &from_room}, {"the other position", &to_room},
                {"the line", &line_room}};
    const uint8_t *place = (const uint8_t *)reached;
    char text[96];
    snprintf(text, sizeof text, "signal %d", number);
    for (size_t i = 0; i < sizeof rows / sizeof *rows; i++) {
        const room *of = rows[i].of;
        if (of->pages && place >= of->pages - page && place < of->pages + of->size + page)
            snprintf(text, sizeof text, "signal %d at byte %ld of %zu of %s", number,
                     (long)(place - of->lent), of->length, rows[i].name);
    }
    fail(&signals, text, (unsigned long)tries);
}

/* a number that looks random */
static uint64_t next_number(void) {
    state ^= state << 13;
    state ^= state >> 7;
    state ^= state << 17;
    return state;
}

static int is_marked(const uint8_t *from, size_t size) {
    return !size || (from[0] == MARK && !memcmp(from, from + 1, size - 1));
}

static size_t less(size_t one, size_t other) { return one < other ? one : other; }

/* what lies before what is lent, and behind it, on the same pages, and is looked at */
static size_t before(const room *of) { return less(GUARD, (size_t)(of->lent - of->pages)); }
static size_t behind(const room *of) {
    return less(GUARD, (size_t)(of->pages + of->size - of->lent) - of->length);
}

static int make_room(room *made, size_t most) {
    size_t size = (most + page - 1) / page * page;
    uint8_t *block =
        (uint8_t *)mmap(0, size + 2 * page, PROT_NONE, MAP_PRIVATE | MAP_ANONYMOUS, -1, 0);
    if (block == MAP_FAILED) return 0;
    made->pages = made->lent = block + page;
    made->size = size;
    return !mprotect(made->pages, size, PROT_READ | PROT_WRITE);
}

/* so much of a room, at one of its ends, marked as what is beside it */
static void *lend_of(room *of, size_t size, int is_at_end) {
    of->length = size;
    of->lent = is_at_end ? of->pages + of->size - size : of->pages;
    memset(of->lent - before(of), MARK, before(of) + size + behind(of));
    return of->lent;
}

/* whether what is beside it is still marked */
static int is_kept(const room *of) {
    return is_marked(of->lent - before(of), before(of)) &&
           is_marked(of->lent + of->length, behind(of));
}

/* room for an answer, of elements of which some bytes are nothing */
static void *lend_padded(size_t size, size_t of_each, size_t from, size_t to) {
    element = of_each;
    hole = from;
    hole_end = to;
    is_counted = 0;
    return lend_of(&answer, size, (int)(next_number() & 1));
}

static void *lend(size_t size) { return lend_padded(size, 1, 0, 0); }

/* room for how many there are, which a call tells with the statuses 0 and 8 alone; it is lent
 * after that for the answer */
static size_t *lend_count(void) {
    is_counted = 1;
    return (size_t *)lend_of(&told, sizeof(size_t), (int)(next_number() & 1));
}

/* the statuses of a call: those of what is not open, of a question that is refused, or others */
static uint32_t allow(uint32_t refused, uint32_t others) {
    return is_closed ? BIT(NOT_OPEN) : refused ? refused : others;
}

static void take_status(uint32_t status, uint32_t allowed) {
    calls++;
    changed += status == BEAROFF_CHANGED;
    if (status > 31 || !(allowed >> status & 1)) fail(&statuses, "status", status);
}

/* what a call left: its status, and that it wrote its answer and nothing else */
static uint32_t take(uint32_t status, uint32_t allowed) {
    size_t written = status == BEAROFF_OK ? answer.length : 0, count = 0;
    take_status(status, allowed);
    if (is_counted) {
        memcpy(&count, told.lent, sizeof count);
        if (written) written = less(count, answer.length / element) * element;
        if (!is_kept(&told) || (status != BEAROFF_OK && status != BEAROFF_BUFFER_TOO_SMALL &&
                                !is_marked(told.lent, told.length)))
            fail(&writes, "wrote beside its count, or into it", status);
    }
    if (!is_kept(&answer)) fail(&writes, "wrote beside its room", status);
    if (!is_marked(answer.lent + written, answer.length - written))
        fail(&writes, "wrote beside its answer", status);
    for (size_t i = 0; hole < hole_end && i < written; i += element)
        memset(answer.lent + i + hole, 0, hole_end - hole);
    digest = ((digest ^ status) * 1099511628211u ^ count) * 1099511628211u;
    for (size_t i = 0; i < written; i += sizeof digest) {
        uint64_t word = 0;
        memcpy(&word, answer.lent + i, less(sizeof word, written - i));
        digest = (digest ^ word) * 1099511628211u;
        digest ^= digest >> 29;
    }
    return status;
}

/* makes a call, whose name is told where something is wrong; a call about the position that is
 * asked, and one about ranks */
#define TAKE(call, allowed, ...) (now = #call, take(call(__VA_ARGS__), allowed))
#define OF_POSITION(call, allowed, type) TAKE(call, allowed, by, at, (type *)lend(sizeof(type)))
#define OF_RANKS(call, allowed, type) \
    TAKE(call, allowed, by, asked->rank, (type *)lend(asked->count * sizeof(type)), asked->count)

/* how many there are: no more than any have, and the room that was lent is short for no fewer */
static size_t take_count(uint32_t status, size_t count, size_t most, size_t lent) {
    if (status != BEAROFF_OK && status != BEAROFF_BUFFER_TOO_SMALL) return 0;
    if ((status == BEAROFF_BUFFER_TOO_SMALL) != (count > lent) || count > most)
        fail(&statuses, "so many", count);
    return count;
}

/* a line, in a room of so many bytes; how many there are */
static size_t answer_line(size_t size, uint32_t others) {
    const bearoff_file *by = (const bearoff_file *)handle.lent;
    uint8_t *text = (uint8_t *)lend(size);
    size_t *needed = lend_count(), most = is_board ? BEAROFF_REPLY : DATABASE_REPLY;
    uint32_t status = TAKE(bearoff_answer_line, allow(0, others), by, line_room.lent,
                           line_room.length, text, size, needed);
    return take_count(status, *needed, most, size);
}

/* a line of the query language, of which now and then only the front is given */
static void ask_line(const question *asked, const char *text, uint32_t others) {
    size_t size = strlen(text);
    if (next_number() % 8 == 0) size = next_number() % (size + 1);
    memcpy(lend_of(&line_room, size, (int)(next_number() & 1)), text, size);
    size_t needed = answer_line(asked->room * 60, others);
    if (needed && asked->is_exact) {
        answer_line(needed, BIT(OK));
        answer_line(needed - 1, BIT(BUFFER_TOO_SMALL));
        answer_line(0, BIT(BUFFER_TOO_SMALL));
    }
    now = "a line";
    if (!is_kept(&line_room) || memcmp(line_room.lent, text, size)) fail(&writes, text, size);
}

static void ask_lines(const question *asked) {
    static const char *const words[] = {"mean", "dist", "rank", "play", "moves", "loss"};
    const uint8_t *on = asked->at->points, *to = asked->to->points;
    for (size_t i = 0; i < sizeof words / sizeof *words; i++) {
        char text[128];
        int size = snprintf(text, sizeof text, "%s %d,%d,%d,%d,%d,%d", words[i], on[0], on[1],
                            on[2], on[3], on[4], on[5]);
        if (i > 2)
            size += snprintf(text + size, sizeof text - (size_t)size, " %d%d", asked->one,
                             asked->other);
        if (i > 4)
            snprintf(text + size, sizeof text - (size_t)size, " %d,%d,%d,%d,%d,%d", to[0], to[1],
                     to[2], to[3], to[4], to[5]);
        ask_line(asked, text, i == 2 ? BIT(OK) | BIT(BUFFER_TOO_SMALL) : any_length);
    }
}

/* the positions that a roll leads to, in a room for so many; how many there are */
static size_t list_moves(const question *asked, size_t lent, uint32_t others) {
    const bearoff_file *by = (const bearoff_file *)handle.lent;
    const bearoff_position *at = asked->at;
    size_t size = sizeof(bearoff_result);
    void *results = lend_padded(lent * size, size, sizeof *at, offsetof(bearoff_result, loss));
    size_t *count = lend_count();
    uint32_t allowed = allow(asked->of_roll, others);
    uint32_t status = TAKE(bearoff_moves, allowed, by, at, asked->one, asked->other,
                           (bearoff_result *)results, lent, count);
    return take_count(status, *count, BEAROFF_RESULTS, lent);
}

static void ask_moves(const question *asked) {
    size_t count = list_moves(asked, asked->room, any_length);
    if (count && asked->is_exact) {
        list_moves(asked, count, BIT(OK));
        list_moves(asked, count - 1, BIT(BUFFER_TOO_SMALL));
        list_moves(asked, 0, BIT(BUFFER_TOO_SMALL));
    }
}

static bearoff_wasted *lend_wastage(void) {
    size_t size = sizeof(bearoff_wasted), used = offsetof(bearoff_wasted, is_below) + sizeof(bool);
    return (bearoff_wasted *)lend_padded(size, size, used, size);
}

static bearoff_recorded_play *lend_play(void) {
    return (bearoff_recorded_play *)lend(sizeof(bearoff_recorded_play));
}

/* every other call */
static void ask_file(const question *asked) {
    const bearoff_file *by = (const bearoff_file *)handle.lent;
    const bearoff_position *at = asked->at, *to = asked->to;
    uint8_t one = asked->one, other = asked->other;
    uint32_t number = allow(asked->of_position, told_or_changed),
             table = allow(asked->of_ranks, told_or_changed);
    bearoff_number mean;
    if (OF_POSITION(bearoff_mean, number, bearoff_number) == BEAROFF_OK) {
        now = "bearoff_as_double";
        memcpy(&mean, answer.lent, sizeof mean);
        double rolls = bearoff_as_double(by, mean);
        if (!(rolls >= 0 && rolls <= (is_board ? 33 : 22)))
            fail(&statuses, "no number of rolls", (unsigned long)rolls);
    }
    TAKE(bearoff_about, allow(0, BIT(OK)), by, (bearoff_facts *)lend(sizeof(bearoff_facts)));
    TAKE(bearoff_position_of, allow(asked->of_rank, BIT(OK)), by, asked->rank,
         (bearoff_position *)lend(6));
    OF_POSITION(bearoff_rank, allow(asked->of_position, BIT(OK)), uint16_t);
    OF_POSITION(bearoff_epc, number, bearoff_rounded);
    OF_POSITION(bearoff_rounded_mean, number, bearoff_rounded);
    OF_POSITION(bearoff_distribution, number, bearoff_shares);
    TAKE(bearoff_wastage, number, by, at, lend_wastage());
    TAKE(bearoff_within, number, by, at, asked->rolls,
         (bearoff_chance *)lend(sizeof(bearoff_chance)));
    OF_RANKS(bearoff_listed_positions, allow(asked->of_ranks, BIT(OK)), bearoff_position);
    OF_RANKS(bearoff_listed_means, table, bearoff_number);
    OF_RANKS(bearoff_listed_epcs, table, bearoff_rounded);
    OF_RANKS(bearoff_listed_distributions, table, bearoff_shares);
    TAKE(bearoff_play, allow(asked->of_roll, told_or_changed), by, at, one, other, lend_play());
    TAKE(bearoff_loss, allow(asked->of_play, told_or_changed), by, at, one, other, to,
         (bearoff_fraction *)lend(sizeof(bearoff_fraction)));
}

static int checkers_of(bearoff_position at) {
    int checkers = 0;
    for (int point = 0; point < 6; point++) checkers += at.points[point];
    return checkers;
}

static int pips_of(bearoff_position at) {
    int pips = 0;
    for (int point = 0; point < 6; point++) pips += (point + 1) * at.points[point];
    return pips;
}

/* one checker moved by a die, where one may be */
static bearoff_position moved(bearoff_position at, int die) {
    int first = (int)(next_number() % 6), highest = 5, from = -1;
    while (highest > 0 && !at.points[highest]) highest--;
    for (int i = 0; i < 6; i++) {
        int point = (first + i) % 6;
        if (at.points[point] && (point + 1 >= die || point == highest)) from = point;
    }
    if (from < 0) return at;
    at.points[from]--;
    if (from + 1 > die) at.points[from - die]++;
    return at;
}

/* a position, where a roll may lead from it, and what else is asked; some of it is refused */
static void make_question(question *asked) {
    int count = counts[bound], strange = (int)(next_number() % 32), one, other;
    bearoff_position at = positions[next_number() % (uint64_t)count], to;
    if (strange == 0) at = positions[count - 1];
    if (strange == 1 && count < MOST_POSITIONS)
        at = positions[count + (int)(next_number() % (uint64_t)(MOST_POSITIONS - count))];
    if (strange == 2) at.points[next_number() % 6] = (uint8_t)(16 + next_number() % 240);
    one = 1 + (int)(next_number() % 6);
    other = 1 + (int)(next_number() % 6);
    to = strange == 2 ? at : moved(moved(at, one), other);
    if (one == other && strange != 2) to = moved(moved(to, one), one);
    if (strange == 3) to.points[next_number() % 6] += (uint8_t)(next_number() % 32);
    if (strange == 4) one = (int)(next_number() % 256);
    if (strange == 5) other = (int)(next_number() % 256);
    asked->one = (uint8_t)one;
    asked->other = (uint8_t)other;
    asked->rolls = (uint8_t)(next_number() % 4 ? next_number() % 36 : next_number());
    asked->count = next_number() % LISTED;
    asked->rank = (uint16_t)(next_number() % (uint64_t)(count + 2));
    if (strange == 6) asked->rank = (uint16_t)(count - (int)asked->count);
    if (strange == 7) asked->rank = (uint16_t)next_number();
    asked->room = next_number() % 4 ? 300 : next_number() % 8;
    asked->is_exact = next_number() % 4 == 0;
    int is_roll = one >= 1 && one <= 6 && other >= 1 && other <= 6;
    uint32_t too_many = checkers_of(at) > 15 ? BIT(TOO_MANY) : 0,
             to_too_many = checkers_of(to) > 15 ? BIT(TOO_MANY) : 0,
             over_bound = pips_of(at) > bound ? BIT(OVER_BOUND) : 0,
             finished = checkers_of(at) ? 0 : BIT(FINISHED),
             bad_roll = is_roll ? 0 : BIT(BAD_ROLL);
    asked->of_position = too_many ? too_many : over_bound;
    asked->of_roll = bad_roll ? bad_roll : asked->of_position ? asked->of_position : finished;
    asked->of_play = !bad_roll && (too_many || to_too_many) ? BIT(TOO_MANY) : asked->of_roll;
    asked->of_rank = asked->rank < count ? 0 : BIT(NO_RANK);
    asked->of_ranks = asked->rank + asked->count <= (size_t)count ? 0 : BIT(NO_RANK);
    *(bearoff_position *)lend_of(&from_room, sizeof at, (int)(next_number() & 1)) = at;
    *(bearoff_position *)lend_of(&to_room, sizeof to, (int)(next_number() & 1)) = to;
    asked->at = (const bearoff_position *)from_room.lent;
    asked->to = (const bearoff_position *)to_room.lent;
    /* this call asks no file, so it tells what is legal whatever the bytes are */
    uint32_t no_play = bad_roll ? bad_roll : too_many | to_too_many,
             status = TAKE(bearoff_play_to, no_play ? no_play : BIT(OK) | BIT(NOT_LEGAL),
                           asked->at, asked->one, asked->other, asked->to, lend_play());
    if (status == BEAROFF_NOT_LEGAL && !asked->of_play) asked->of_play = BIT(NOT_LEGAL);
}

/* every call about some positions */
static void ask_some(void) {
    question asked;
    for (int i = 0; i < ASKED; i++) {
        make_question(&asked);
        bearoff_position at = *asked.at, to = *asked.to;
        ask_file(&asked);
        ask_moves(&asked);
        ask_lines(&asked);
        now = "a question";
        if (!is_kept(&from_room) || !is_kept(&to_room) || memcmp(asked.at, &at, sizeof at) ||
            memcmp(asked.to, &to, sizeof to))
            fail(&writes, "wrote into it", (unsigned long)tries);
    }
}

/* some of a room, from the page on where it begins, to be read alone or to be written too */
static void protect(uint8_t *from, size_t size, int how) {
    size_t beyond = (size_t)from % page;
    if (mprotect(from - beyond, beyond + size, how)) exit(2);
}

/* the first bytes, which can be written up to the next try */
static uint8_t *changing(size_t size) {
    protect(bytes.lent, size, PROT_READ | PROT_WRITE);
    return bytes.lent;
}

/* one try: whether a signal ended it, and that it left the struct alone; neither it nor the
 * bytes can be written meanwhile */
static void try_once(uint64_t from) {
    uint64_t kept = state;
    tries++;
    digest = 0;
    state = from;
    protect(bytes.pages, bytes.size, PROT_READ);
    protect(handle.pages, sizeof opened, PROT_READ);
    int number = sigsetjmp(before_try, 1);
    if (number == 0)
        ask_some();
    else
        tell_signal(number);
    protect(handle.pages, sizeof opened, PROT_READ | PROT_WRITE);
    state = kept;
}

/* what is asked, where it begins or ends a page */
static void put_handle(const bearoff_file *from) {
    memcpy(lend_of(&handle, sizeof *from, (int)(next_number() & 1)), from, sizeof *from);
}

/* opens the bytes, with so much room for the line of a fault */
static uint32_t open_in(size_t size, uint32_t allowed) {
    uint8_t *line = (uint8_t *)lend(size);
    size_t *needed = lend_count();
    now = "bearoff_open";
    uint32_t status =
        bearoff_open((bearoff_file *)handle.lent, bytes.lent, bytes.length, line, size, needed);
    take_status(status, allowed);
    size_t written = status != BEAROFF_OK && *needed <= size ? *needed : 0;
    if (*needed > BEAROFF_LINE || (status == BEAROFF_OK) != (*needed == 0))
        fail(&statuses, "so many", *needed);
    else if (!is_kept(&answer) || !is_kept(&told) || !is_kept(&handle) ||
             !is_marked(line + written, size - written))
        fail(&writes, "wrote beside the fault's line", status);
    return status;
}

/* opens the bytes; a refusal leaves the struct as it was, but not open */
static void try_opening(uint32_t allowed) {
    tries++;
    protect(bytes.pages, bytes.size, PROT_READ);
    int number = sigsetjmp(before_try, 1);
    if (number == 0) {
        static bearoff_file was;
        bearoff_file *by = (bearoff_file *)handle.lent;
        memcpy(&was, by, sizeof was);
        uint32_t status = open_in(next_number() % (BEAROFF_LINE + 1), allowed);
        was.is_open = 0;
        if (by->is_open != (status == BEAROFF_OK))
            fail(&statuses, "whether it is open", status);
        else if (status != BEAROFF_OK && memcmp(by, &was, sizeof was))
            fail(&writes, "wrote into what it refused", status);
    } else {
        tell_signal(number);
    }
}

/* the front of the file, at the end of its room that is tried now */
static void put_front(size_t size) {
    bytes.length = size;
    bytes.lent = at_end ? bytes.pages + bytes.size - size : bytes.pages;
    memcpy(changing(size), right, size);
}

/* a front with the header that it has */
static void try_cut(size_t size) {
    if (size >= length) return;
    put_front(size);
    try_opening(size < HEADER ? BIT(TOO_SHORT) : BIT(BAD_LENGTH));
}

/* how many bytes a record has */
static size_t record_bytes(int version, int pips) {
    int most = pips ? (2 * pips + (pips < 15 ? pips : 15) + 6) / 6 : 0, size = 66;
    if (version == 1) return 426;
    if (version == 2) return 58 + 16 * (size_t)most;
    for (int k = 1; k <= most; k++) size += k <= 11 ? 8 : k <= 22 ? 16 : 24;
    return (size_t)size;
}

/* cuts to 100 bytes, and about the ends of records: of all, or the first and last of many */
static void try_cuts(void) {
    size_t place = HEADER;
    for (size_t size = 0; size <= CUT; size++) try_cut(size);
    for (int rank = 0; rank < counts[bound]; rank++) {
        place += record_bytes(right[9], pips_of(positions[rank]));
        if (length > FEW_BYTES && rank > 12 && rank < counts[bound] - 3) continue;
        for (size_t size = place - 2; size <= place + 2; size++) try_cut(size);
    }
}

/* gives records numbers that look random, or that lie close to the right ones */
static void change_records(void) {
    size_t count = 1 + next_number() % 4, size, records = bytes.length - HEADER;
    uint8_t *from = changing(bytes.length) + HEADER;
    switch (next_number() % 4) {
        case 0: /* some single bytes */
            while (count--) from[next_number() % records] = (uint8_t)next_number();
            break;
        case 1: /* single bits, so that a rank or a mean stays near */
            while (count--) from[next_number() % records] ^= (uint8_t)(1 << next_number() % 8);
            break;
        case 2: /* a run of one byte */
            size = 1 + next_number() % 1000;
            for (size_t i = next_number() % records; i < records && size--; i++)
                from[i] = (uint8_t)(state >> 40);
            break;
        default: /* about a sixteenth of all bytes */
            for (size_t i = next_number() % 16; i < records; i += 1 + next_number() % 31)
                from[i] = (uint8_t)next_number();
    }
}

/* each byte of the header, with each other value: no answer depends on it, and the opening refuses
 * them all */
static void change_header(void) {
    uint64_t asked = next_number() | 1;
    put_handle(&opened);
    try_once(asked);
    uint64_t wanted = digest;
    for (size_t place = 0; place < HEADER; place++) {
        for (int by = 1; by < 256; by++) {
            changing(HEADER)[place] = (uint8_t)(right[place] ^ by);
            try_opening(header_faults);
            put_handle(&opened);
            try_once(asked);
            now = "the header";
            if (digest != wanted) fail(&differing, "another answer", place);
        }
        changing(HEADER)[place] = right[place];
    }
}

/* records; and, now and then, the header too */
static void change_all(uint64_t rounds) {
    for (uint64_t i = 0; i < rounds; i++) {
        change_records();
        if (i % 4 == 0) changing(HEADER)[next_number() % HEADER] = (uint8_t)next_number();
        if (bytes.length <= FEW_BYTES || i % 8 == 1)
            try_opening(header_faults | record_faults | BIT(OK));
        put_handle(&opened);
        try_once(next_number() | 1);
        if (i % 3 == 0) put_front(bytes.length);
    }
}

/* what is not open: as it begins, of zeros, and after a refusal */
static void ask_closed(void) {
    static const bearoff_file begun = BEAROFF_CLOSED;
    static bearoff_file closed;
    is_closed = 1;
    memset(&closed, 0, sizeof closed);
    for (int i = 0; i < 3; i++) {
        if (i == 1) closed = begun;
        if (i == 2) closed = opened;
        closed.is_open = 0;
        put_handle(&closed);
        try_once(next_number() | 1);
    }
    is_closed = 0;
}

/* opens bytes that are right, and keeps what is opened */
static void open_right(void) {
    put_handle(&opened);
    try_opening(BIT(OK));
    memcpy(&opened, handle.lent, sizeof opened);
}

static void put_header(int pips) {
    for (int i = 0; i < 4; i++) right[12 + i] = (uint8_t)(counts[pips] >> (24 - 8 * i));
    right[10] = 0;
    right[11] = (uint8_t)pips;
}

/* the fronts that are right files of a smaller bound once the header says so */
static void try_fronts(void) {
    int whole = bound;
    for (bound = 0; bound < whole && bound <= FEW_PIPS; bound++) {
        put_header(bound);
        for (size_t size = ends[bound] - 2; size <= ends[bound] + 2; size++) {
            if (size == ends[bound]) continue;
            put_front(size);
            try_opening(BIT(BAD_LENGTH));
        }
        put_front(ends[bound]);
        open_right();
        for (int i = 0; i < ASKED; i++) try_once(next_number() | 1);
        change_all(ASKED);
    }
    bound = whole;
    put_header(bound);
}

/* those of so many pips, by rising rank */
static void add_positions(bearoff_position at, int point, int left, int pips) {
    if (point == 6) {
        if (!pips) positions[counts[bound]++] = at;
        return;
    }
    for (int n = 0; n <= left && n * (point + 1) <= pips; n++) {
        at.points[point] = (uint8_t)n;
        add_positions(at, point + 1, left - n, pips - n * (point + 1));
    }
}

/* how many positions have at most so many pips, and where their records end */
static void count_positions(void) {
    bearoff_position none = {{0, 0, 0, 0, 0, 0}};
    for (bound = 0; bound <= MOST_PIPS; bound++) {
        int begin = bound ? counts[bound - 1] : 0;
        counts[bound] = begin;
        add_positions(none, 0, 15, bound);
        ends[bound] = (bound ? ends[bound - 1] : HEADER) +
                      (size_t)(counts[bound] - begin) * record_bytes(right[9], bound);
    }
}

static int read_file(const char *name) {
    FILE *from = fopen(name, "rb");
    if (!from || fseek(from, 0, SEEK_END)) return 0;
    length = (size_t)ftell(from);
    rewind(from);
    right = (uint8_t *)malloc(length);
    int is_read = right && length > HEADER && fread(right, 1, length, from) == length;
    fclose(from);
    return is_read;
}

int main(int count, char **words) {
    static const int signs[] = {SIGSEGV, SIGBUS, SIGILL, SIGFPE, SIGTRAP, SIGABRT};
    if (count < 3 || !read_file(words[1])) return 2;
    uint64_t rounds = strtoull(words[2], 0, 10);
    state = count > 3 ? strtoull(words[3], 0, 10) : 88172645463325252u;
    is_board = right[9] == BOARD_VERSION;
    page = (size_t)sysconf(_SC_PAGESIZE);
    count_positions();
    bound = right[11];
    if (bound > MOST_PIPS || ends[bound] != length) return 2;
    int is_made = make_room(&bytes, length) && make_room(&answer, MOST_ROOM) &&
                  make_room(&told, GUARD) && make_room(&from_room, GUARD) &&
                  make_room(&to_room, GUARD) && make_room(&line_room, 2 * GUARD) &&
                  make_room(&handle, sizeof opened);
    if (!is_made) return 2;
    struct sigaction action;
    memset(&action, 0, sizeof action);
    action.sa_sigaction = stop_try;
    action.sa_flags = SA_SIGINFO;
    for (size_t i = 0; i < sizeof signs / sizeof *signs; i++) sigaction(signs[i], &action, 0);

    for (at_end = 0; at_end < 2; at_end++) {
        put_front(length);
        open_right();
        ask_closed();
        try_cuts();
        put_front(length);
        change_header();
        change_all(rounds);
        try_fronts();
    }
    printf(
        "%llu tries with %llu calls, %llu of them told of a change: %llu tries ended by a signal, "
        "%llu writes where none may be, %llu other statuses, %llu answers by the header\n",
        (unsigned long long)tries, (unsigned long long)calls, (unsigned long long)changed,
        (unsigned long long)signals, (unsigned long long)writes, (unsigned long long)statuses,
        (unsigned long long)differing);
    free(right);
    return signals || writes || statuses || differing;
}
