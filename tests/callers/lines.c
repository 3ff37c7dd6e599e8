/*
 * Answers lines as `bearoff query FILE` does, by way of the library: its replies are compared with
 * the program's. What other calls say of the same position has to agree with what is answered.
 *
 * usage: lines FILE [THREADS] <lines    with THREADS, as many threads answer all lines, over a
 *                                       database each, and it fails where their replies differ
 *        lines FILE --text <lines       by bearoff_answer_line, with no room first and then just
 *                                       enough
 *        lines FILE --speed N           how many means a second N calls come to, over all
 *                                       positions of at most the bound in the order of a walk
 *        lines FILE --tables            how many microseconds all means take in one call, and all
 *                                       distributions, with the memory for them; the best of nine
 *
 * It is C and C++ both.
 */
#define _POSIX_C_SOURCE 200809L
#include <pthread.h>
#include <stdarg.h>
#include <stdio.h>
#include <stdlib.h>
#include <string.h>
#include <time.h>

#include "bearoff.h"

/* the file as it is opened at first, and what it says of itself */
static bearoff_file opened;
static bearoff_facts facts;

static const char *fault_words(uint32_t status) {
    switch (status) {
        case BEAROFF_TOO_MANY:
            return "error too-many";
        case BEAROFF_OVER_BOUND:
            return "error over-bound";
        case BEAROFF_FINISHED:
            return "error finished";
        case BEAROFF_NOT_LEGAL:
            return "error not-legal";
        default:
            return "error bad-line";
    }
}

static void fail(const char *what) {
    fprintf(stderr, "lines: %s\n", what);
    exit(1);
}

/* a text that grows */
typedef struct text {
    char *bytes;
    size_t length, room;
} text;

static void put(text *to, const char *form, ...) {
    for (;;) {
        va_list words;
        va_start(words, form);
        int count = vsnprintf(to->bytes + to->length, to->room - to->length, form, words);
        va_end(words);
        if (count < 0) fail("print");
        if ((size_t)count < to->room - to->length) {
            to->length += (size_t)count;
            return;
        }
        to->room = 2 * to->room + (size_t)count + 1;
        to->bytes = (char *)realloc(to->bytes, to->room);
        if (!to->bytes) fail("memory");
    }
}

/* a number times another one, and one more */
static bearoff_number times(bearoff_number of, uint32_t factor, uint64_t more) {
    for (int word = 2; word >= 0; word--) {
        unsigned __int128 product = (unsigned __int128)of.words[word] * factor + more;
        of.words[word] = (uint64_t)product;
        more = (uint64_t)(product >> 64);
    }
    return of;
}

/* what is left of a number that is divided */
static uint32_t divide(bearoff_number *of, uint32_t by) {
    uint64_t rest = 0;
    for (int word = 0; word < 3; word++) {
        unsigned __int128 part = (unsigned __int128)rest << 64 | of->words[word];
        of->words[word] = (uint64_t)(part / by);
        rest = (uint64_t)(part % by);
    }
    return (uint32_t)rest;
}

static bearoff_number sum_of(bearoff_number one, bearoff_number other) {
    uint64_t carry = 0;
    for (int word = 2; word >= 0; word--) {
        unsigned __int128 sum = (unsigned __int128)one.words[word] + other.words[word] + carry;
        one.words[word] = (uint64_t)sum;
        carry = (uint64_t)(sum >> 64);
    }
    return one;
}

static int is_none(bearoff_number of) { return !(of.words[0] | of.words[1] | of.words[2]); }

static int is_less(bearoff_number one, bearoff_number other) {
    int word = 0;
    while (word < 2 && one.words[word] == other.words[word]) word++;
    return one.words[word] < other.words[word];
}

static int same_number(bearoff_number one, bearoff_number other) {
    return !memcmp(&one, &other, sizeof one);
}

/* 36 to the power of the most rolls, over which each number of a file is */
static bearoff_number whole(void) {
    bearoff_number power = {{0, 0, 1}};
    for (int k = 0; k < facts.rolls; k++) power = times(power, 36, 0);
    return power;
}

/* a number over the whole in lowest terms: no prime but 2 and 3 divides that */
static bearoff_fraction over_whole(bearoff_number of) {
    bearoff_fraction fraction = {of, whole()};
    for (uint32_t prime = 2; prime <= 3; prime++) {
        for (;;) {
            bearoff_fraction less = fraction;
            if (divide(&less.numerator, prime) || divide(&less.denominator, prime)) break;
            fraction = less;
        }
    }
    return fraction;
}

static void put_number(text *to, bearoff_number of) {
    char digits[64];
    int first = 64;
    do digits[--first] = (char)('0' + (int)divide(&of, 10));
    while (!is_none(of));
    put(to, "%.*s", 64 - first, digits + first);
}

static void put_fraction(text *to, bearoff_fraction fraction) {
    put_number(to, fraction.numerator);
    put(to, "/");
    put_number(to, fraction.denominator);
}

static void put_position(text *to, bearoff_position at) {
    for (int i = 0; i < 6; i++) put(to, "%s%d", i ? "," : "", at.points[i]);
}

static int read_position(const char **from, bearoff_position *at) {
    for (int i = 0; i < 6; i++) {
        char *end;
        long count = strtol(*from, &end, 10);
        if (end == *from || count < 0 || count > 255 || (i < 5 && *end != ',')) return 0;
        at->points[i] = (uint8_t)count;
        *from = end + (i < 5);
    }
    return 1;
}

static int read_roll(const char **from, uint8_t *one, uint8_t *other) {
    if (**from != ' ' || !(*from)[1] || !(*from)[2]) return 0;
    *one = (uint8_t)((*from)[1] - '0');
    *other = (uint8_t)((*from)[2] - '0');
    *from += 3;
    return 1;
}

static void put_thousandths(text *to, uint64_t thousandths) {
    put(to, "%lu.%03lu", (unsigned long)(thousandths / 1000), (unsigned long)(thousandths % 1000));
}

/* whether a number over the whole comes to so many thousandths, a half up */
static int is_rounded(bearoff_number of, uint64_t thousandths) {
    bearoff_number twice = times(of, 2000, 0);
    uint32_t above = (uint32_t)(2 * thousandths + 1);
    return is_less(twice, times(whole(), above, 0)) &&
           (!thousandths || !is_less(twice, times(whole(), above - 2, 0)));
}

static int same_position(bearoff_position one, bearoff_position other) {
    return !memcmp(&one, &other, sizeof one);
}

/* the mean of a position as a fraction and rounded, and where it stands */
static void check_mean(const bearoff_file *database, bearoff_position at, bearoff_number mean) {
    bearoff_rounded rolls;
    bearoff_info stand;
    if (bearoff_rounded_mean(database, &at, &rolls) || bearoff_position_info(&at, &stand))
        fail("a mean that is told once is not told again");
    bearoff_fraction exact = over_whole(mean);
    if (!same_number(rolls.exact.numerator, exact.numerator) ||
        !same_number(rolls.exact.denominator, exact.denominator) ||
        !is_rounded(mean, rolls.thousandths))
        fail("a rounded mean");
    unsigned all = 0, checkers = 0;
    for (unsigned point = 1; point <= 6; point++) {
        all += point * at.points[point - 1];
        checkers += at.points[point - 1];
    }
    if (stand.pips != all || stand.checkers != checkers || stand.off != 15 - checkers)
        fail("where it stands");
}

/* the chances to be off within so many rolls, beside the shares */
static void check_within(const bearoff_file *database, bearoff_position at,
                         bearoff_shares shares) {
    bearoff_number total = {{0}};
    for (int rolls = 0; rolls < 256; rolls++) {
        bearoff_chance told;
        if (rolls < 34) total = sum_of(total, shares.shares[rolls]);
        if (bearoff_within(database, &at, (uint8_t)rolls, &told) ||
            !same_number(told.numerator, total) || !is_rounded(total, told.thousandths))
            fail("within");
    }
}

/* a play that leads to a position, beside what each of its moves does */
static void check_play_to(bearoff_position at, uint8_t one, uint8_t other, bearoff_position to) {
    bearoff_recorded_play play;
    if (bearoff_play_to(&at, one, other, &to, &play) || !same_position(play.to, to))
        fail("a play to a position");
    for (int i = 0; i < play.count; i++) {
        at.points[play.moves[i].from - 1]--;
        if (play.moves[i].to) at.points[play.moves[i].to - 1]++;
    }
    if (!same_position(at, to)) fail("the moves of a play to a position");
}

static void answer(const bearoff_file *database, const char *line, text *reply) {
    char word[6] = {0};
    size_t length = strcspn(line, " \n");
    uint32_t status = BEAROFF_BAD_ROLL;
    bearoff_position at, to;
    uint8_t one = 0, other = 0;
    const char *rest = line + length + 1;
    if (length < 4 || length > 5 || line[length] != ' ' || !read_position(&rest, &at)) {
        put(reply, "error bad-line\n");
        return;
    }
    memcpy(word, line, length);
    if (!strcmp(word, "mean")) {
        bearoff_number mean;
        bearoff_rounded pips;
        status = bearoff_mean(database, &at, &mean);
        if (!status) status = bearoff_epc(database, &at, &pips);
        if (!status) {
            check_mean(database, at, mean);
            put(reply, "mean ");
            put_fraction(reply, over_whole(mean));
            put(reply, " epc ");
            put_fraction(reply, pips.exact);
            put(reply, " ");
            put_thousandths(reply, pips.thousandths);
        }
    } else if (!strcmp(word, "rank")) {
        uint16_t rank;
        status = bearoff_rank(database, &at, &rank);
        if (!status) put(reply, "rank %u", (unsigned)rank);
    } else if (!strcmp(word, "dist")) {
        bearoff_shares shares;
        status = bearoff_distribution(database, &at, &shares);
        if (!status) {
            check_within(database, at, shares);
            put(reply, "dist");
            for (int k = 0; k < 34; k++) {
                if (is_none(shares.shares[k])) continue;
                put(reply, " %d:", k);
                put_fraction(reply, over_whole(shares.shares[k]));
            }
        }
    } else if (!strcmp(word, "play") && read_roll(&rest, &one, &other)) {
        bearoff_recorded_play play;
        status = bearoff_play(database, &at, one, other, &play);
        if (!status) {
            bearoff_recorded_play first;
            memset(&first, 0, sizeof first);
            if (bearoff_play_to(&at, one, other, &play.to, &first) ||
                memcmp(&first, &play, sizeof play)) {
                fail("the first play to the recorded position");
            }
            put(reply, "play");
            for (int i = 0; i < play.count; i++) {
                put(reply, play.moves[i].to ? " %d/%d" : " %d/off", play.moves[i].from,
                    play.moves[i].to);
            }
            put(reply, " to ");
            put_position(reply, play.to);
        }
    } else if (!strcmp(word, "loss") && read_roll(&rest, &one, &other) && *rest++ == ' ' &&
               read_position(&rest, &to)) {
        bearoff_fraction loss;
        bearoff_recorded_play play;
        status = bearoff_loss(database, &at, one, other, &to, &loss);
        if (status == BEAROFF_NOT_LEGAL &&
            bearoff_play_to(&at, one, other, &to, &play) != BEAROFF_NOT_LEGAL) {
            fail("a play to where the roll doesn't lead");
        }
        if (!status) {
            check_play_to(at, one, other, to);
            put(reply, "loss ");
            put_fraction(reply, loss);
        }
    } else if (!strcmp(word, "moves") && read_roll(&rest, &one, &other)) {
        static const size_t room = BEAROFF_RESULTS;
        bearoff_result *results = (bearoff_result *)calloc(room, sizeof *results);
        size_t count = 0;
        if (!results) fail("memory");
        status = bearoff_moves(database, &at, one, other, results, room, &count);
        if (!status) {
            put(reply, "moves");
            for (size_t i = 0; i < count; i++) {
                check_play_to(at, one, other, results[i].to);
                put(reply, " ");
                put_position(reply, results[i].to);
                put(reply, ":");
                put_fraction(reply, results[i].loss);
            }
        }
        free(results);
    }
    put(reply, status ? "%s\n" : "\n", fault_words(status));
}

/* the reply to a line as the library has it, whatever its bytes are */
static void answer_line(const bearoff_file *database, const char *line, size_t length,
                        text *reply) {
    uint8_t mark = 0xA5;
    size_t needed = 0, told = 0;
    uint32_t status =
        bearoff_answer_line(database, (const uint8_t *)line, length, &mark, 0, &needed);
    if (status != BEAROFF_BUFFER_TOO_SMALL || !needed || needed > BEAROFF_REPLY || mark != 0xA5)
        fail("a line without room");
    while (reply->room - reply->length < needed + 1) {
        reply->room = 2 * reply->room + needed + 1;
        reply->bytes = (char *)realloc(reply->bytes, reply->room);
        if (!reply->bytes) fail("memory");
    }
    uint8_t *at = (uint8_t *)reply->bytes + reply->length;
    if (bearoff_answer_line(database, (const uint8_t *)line, length, at, needed, &told) ||
        told != needed)
        fail("a line");
    at[needed] = '\n';
    reply->length += needed + 1;
}

static text read_all(FILE *from) {
    text all = {0, 0, 0};
    for (;;) {
        if (all.room - all.length < 65536) {
            all.room = 2 * all.room + 131072;
            all.bytes = (char *)realloc(all.bytes, all.room);
            if (!all.bytes) fail("memory");
        }
        size_t count = fread(all.bytes + all.length, 1, 65536, from);
        if (!count) break;
        all.length += count;
    }
    if (ferror(from)) fail("read");
    all.bytes[all.length] = 0;
    return all;
}

static text file, lines;

static void open_it(bearoff_file *database) {
    uint8_t line[BEAROFF_LINE];
    size_t needed;
    uint32_t status = bearoff_open(database, (const uint8_t *)file.bytes, file.length, line,
                                   sizeof line, &needed);
    if (status) {
        fprintf(stderr, "lines: refused %.*s\n", (int)needed, (const char *)line);
        exit(3);
    }
}

static void *answer_all(void *to) {
    text *replies = (text *)to;
    bearoff_file *database = (bearoff_file *)calloc(1, sizeof *database);
    if (!database) fail("memory");
    open_it(database);
    replies->room = 1 << 16;
    replies->bytes = (char *)malloc(replies->room);
    if (!replies->bytes) fail("memory");
    for (const char *line = lines.bytes; *line; line = strchr(line, '\n') + 1)
        answer(database, line, replies);
    free(database);
    return 0;
}

static void answer_by_text(void) {
    text replies = {0, 0, 0};
    const char *end = lines.bytes + lines.length;
    for (const char *line = lines.bytes; line < end;) {
        const char *feed = (const char *)memchr(line, '\n', (size_t)(end - line));
        if (!feed) fail("no line feed at the end");
        answer_line(&opened, line, (size_t)(feed - line), &replies);
        line = feed + 1;
    }
    if (fwrite(replies.bytes, 1, replies.length, stdout) != replies.length) fail("write");
    free(replies.bytes);
}

/* seconds since some time */
static double now(void) {
    struct timespec time;
    clock_gettime(CLOCK_MONOTONIC, &time);
    return (double)time.tv_sec + 1e-9 * (double)time.tv_nsec;
}

static void speed(long calls) {
    bearoff_position *at = (bearoff_position *)malloc(facts.positions * sizeof *at);
    if (!at || bearoff_listed_positions(&opened, 0, at, facts.positions)) fail("positions");
    uint64_t sum = 0;
    double start = now();
    size_t place = 0;
    for (long i = 0; i < calls; i++) {
        bearoff_number mean;
        place = (place + 7919) % facts.positions;
        if (bearoff_mean(&opened, &at[place], &mean)) fail("mean");
        sum += mean.words[1];
    }
    printf("%.0f means a second\n", (double)calls / (now() - start));
    if (!sum) fail("no sum");
    free(at);
}

static void tables(void) {
    size_t positions = facts.positions;
    for (int which = 0; which < 2; which++) {
        double least = 1;
        for (int i = 0; i < 9; i++) {
            double start = now();
            void *room =
                malloc(positions * (which ? sizeof(bearoff_shares) : sizeof(bearoff_number)));
            if (!room ||
                (which
                     ? bearoff_listed_distributions(&opened, 0, (bearoff_shares *)room, positions)
                     : bearoff_listed_means(&opened, 0, (bearoff_number *)room, positions))) {
                fail("a table");
            }
            double taken = now() - start;
            free(room);
            if (taken < least) least = taken;
        }
        printf("%s %.0f us\n", which ? "distributions" : "means", 1e6 * least);
    }
}

int main(int count, char **words) {
    if (count < 2) fail("usage: lines FILE [THREADS | --text | --speed N | --tables]");
    FILE *from = fopen(words[1], "rb");
    if (!from) fail("open");
    file = read_all(from);
    fclose(from);
    open_it(&opened);
    if (bearoff_about(&opened, &facts)) fail("about");
    int is_timed = count == 4 || (count == 3 && !strcmp(words[2], "--tables"));
    if (!is_timed) lines = read_all(stdin);
    if (count == 4) speed(atol(words[3]));
    if (count == 3 && is_timed) tables();
    int is_text = count == 3 && !strcmp(words[2], "--text");
    if (is_text) answer_by_text();
    if (is_timed || is_text) {
        free(lines.bytes);
        free(file.bytes);
        return 0;
    }
    enum { MOST = 16 };
    int threads = count > 2 ? atoi(words[2]) : 1;
    text replies[MOST];
    pthread_t ids[MOST];
    memset(replies, 0, sizeof replies);
    if (threads < 1 || threads > MOST) fail("threads");
    for (int i = 0; i < threads; i++) {
        if (pthread_create(&ids[i], 0, answer_all, &replies[i])) fail("thread");
    }
    for (int i = 0; i < threads; i++) pthread_join(ids[i], 0);
    for (int i = 1; i < threads; i++) {
        if (replies[i].length != replies[0].length ||
            memcmp(replies[i].bytes, replies[0].bytes, replies[0].length)) {
            fail("two threads answer differently");
        }
    }
    if (fwrite(replies[0].bytes, 1, replies[0].length, stdout) != replies[0].length) fail("write");
    for (int i = 0; i < threads; i++) free(replies[i].bytes);
    free(lines.bytes);
    free(file.bytes);
    return 0;
}
