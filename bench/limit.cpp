// What plain code can do: a program that builds files of every version and checks them, and
// answers `mean` lines, written to be as fast as can be without vector instructions, and proved
// in nothing. `bench/run limit` counts its instructions beside those of bearoff, and compares
// what both write.
//
// usage: limit build VERSION PIPS FILE  a file of version 1, to 44 pips, 2, to 58, or 3, to 90
//        limit check FILE               such a file: says `ok`, or the first rank whose record
//                                       has a fault
//        limit answer FILE <lines       without a check, over version 1; each line is a `mean`
//                                       line of a position within the bound
//
// What it does otherwise than bearoff:
// - It keeps the numbers of all records as words: means over 36^33, and counts of sequences, in
//   parts of 36^11. So sums are additions of 64 bits, and there is no division but by 36^11. A
//   share of versions 1 and 2 is a count times a power of 36.
// - No rank is computed. Of the positions of one pip count, those with a checker on a point go
//   by one pip, in the order of ranks, to those of a pip fewer with a checker on the point
//   below. A die is a chain of such moves.
// - A mean's first 48 bits and its rank are one key, so that the least key is the best result. A
//   key is the bits of a double, of two of which the lesser is one instruction. That these bits
//   tell all means apart is told by the file that comes of it.
// - Best plays are found by a function for each of the 63 sets of points with a checker.
// - It trusts its memory, its sizes and its lines.
#include <algorithm>
#include <cstdint>
#include <cstdio>
#include <cstdlib>
#include <cstring>
#include <memory>
#include <string>
#include <utility>
#include <vector>

typedef unsigned __int128 wide;
typedef std::uint64_t word;

static const int POSITIONS = 54264, MOST_PIPS = 90, HEADER = 32, ROLLS = 21, DOUBLES = 6;
static const word PART = 131621703842267136ull;  // 36^11
static const wide WHOLE = (wide)PART * PART;     // 36^22
static const wide NINTH = ((wide)0x38e38e38e38e38e3ull << 64) | 0x8e38e38e38e38e39ull;

[[noreturn]] static void fail(const char *why) {
    std::fprintf(stderr, "limit: %s\n", why);
    std::exit(1);
}

// room for so many numbers, all 0, which the system gives so and nobody has to write
struct release {
    void operator()(void *room) const { std::free(room); }
};
template <class number>
using room = std::unique_ptr<number[], release>;
template <class number>
static room<number> zeros(std::size_t count) {
    void *given = std::calloc(count, sizeof(number));
    if (!given) fail("memory");
    return room<number>((number *)given);
}

static word read_word(const unsigned char *from) {
    word value;
    std::memcpy(&value, from, 8);
    return __builtin_bswap64(value);
}

static wide read_wide(const unsigned char *from) {
    return ((wide)read_word(from) << 64) | read_word(from + 8);
}

static void write_word(unsigned char *to, word value) {
    value = __builtin_bswap64(value);
    std::memcpy(to, &value, 8);
}

// a 36th of a multiple of 36, by the inverse of 9 to 128 bits
static wide thirty_sixth(wide value) { return (value >> 2) * NINTH; }

// the most rolls of a pip count
static int most_rolls(int pips) { return pips == 0 ? 0 : (2 * pips + std::min(pips, 15) + 6) / 6; }

// where a record of version 3 has the count of k throws
static int place_of(int k) {
    return 66 + 8 * (k - 1) + 8 * std::max(k - 12, 0) + 8 * std::max(k - 23, 0);
}

// the words of a record that is kept: three of the mean, and then the counts of 0, 1 and more
// throws, from 12 on in two parts
static const int COUNTS = 4;
static int word_of(int k) { return COUNTS + k + std::max(k - 12, 0); }

// where the records of a file stand
struct layout {
    int version, bound, count = 0;
    int first_of[MOST_PIPS + 2] = {};
    std::size_t length[MOST_PIPS + 1], place[MOST_PIPS + 2];

    layout(int version, int bound) : version(version), bound(bound) {
        // how many lists of counts have so many checkers at most, and so many pips
        std::uint32_t ways[16][MOST_PIPS + 1] = {};
        for (auto &row : ways) row[0] = 1;
        for (int point = 1; point <= 6; point++)
            for (int checkers = 1; checkers < 16; checkers++)
                for (int pips = point; pips <= MOST_PIPS; pips++)
                    ways[checkers][pips] += ways[checkers - 1][pips - point];
        place[0] = HEADER;
        for (int pips = 0; pips <= bound; pips++) {
            int rolls = most_rolls(pips), many = (int)ways[15][pips];
            length[pips] = version == 1   ? 426
                           : version == 2 ? 58 + 16 * rolls
                                          : place_of(rolls + 1);
            first_of[pips + 1] = first_of[pips] + many;
            place[pips + 1] = place[pips] + length[pips] * many;
        }
        count = first_of[bound + 1];
    }

    std::size_t end() const { return place[bound + 1]; }

    void put_header(unsigned char *to) const {
        std::memset(to, 0, HEADER);
        std::memcpy(to, "EPCTABLE", 8);
        to[9] = (unsigned char)version;
        to[11] = (unsigned char)bound;
        to[14] = (unsigned char)(count >> 8);
        to[15] = (unsigned char)count;
        if (version == 1) {
            to[18] = 426 >> 8;
            to[19] = 426 & 255;
        }
    }
};

// what is kept of a position for those of more pips: keys of the best results after one die more,
// of the position itself, and after two and three dice more of a double; and where in the ring a
// checker goes from each point by one pip
struct alignas(64) row {
    double one[6], own, many[6][2];
    std::uint32_t down[6];
};

// the rows of the last pip counts, by rank; no seven of them have more positions
struct ring {
    static const std::uint32_t ROWS = 16384;
    room<row> rows = zeros<row>(ROWS);

    static std::uint32_t of_rank(int rank) {
        return ((std::uint32_t)rank & (ROWS - 1)) * sizeof(row);
    }
    row &at(std::uint32_t place) { return *(row *)((char *)rows.get() + place); }
};

// the best keys of the rolls from a position, by the first die and the second
struct best_keys {
    double by_dice[6][6];
};

static double lesser(double one, double other) { return other < one ? other : one; }

// finds them where just the points of a set have a checker, and fills the position's row
template <int points>
static void find_best(ring &of, row &own, best_keys &best) {
    constexpr int highest = points >= 32   ? 5
                            : points >= 16 ? 4
                            : points >= 8  ? 3
                            : points >= 4  ? 2
                            : points >= 2  ? 1
                                           : 0;
    std::uint32_t chains[6][6];
#pragma unroll
    for (int point = 0; point <= highest; point++)
        if (points >> point & 1) {
            std::uint32_t at = own.down[point];
            chains[point][0] = at;
#pragma unroll
            for (int pips = 1; pips <= point; pips++)
                chains[point][pips] = at = of.at(at).down[point - pips];
        }
#pragma unroll
    for (int die = 0; die < 6; die++) {
        // what die leads to from the highest point, or bears off
        const row &first = of.at(chains[highest][std::min(highest, die)]);
        double one[6], self = first.own, two = first.many[die][0], three = first.many[die][1];
#pragma unroll
        for (int second = 0; second < 6; second++) one[second] = first.one[second];
#pragma unroll
        for (int point = die; point < highest; point++)
            if (points >> point & 1) {
                const row &next = of.at(chains[point][die]);
#pragma unroll
                for (int second = 0; second < 6; second++)
                    one[second] = lesser(one[second], next.one[second]);
                self = lesser(self, next.own);
                two = lesser(two, next.many[die][0]);
                three = lesser(three, next.many[die][1]);
            }
        own.one[die] = self;
        own.many[die][0] = one[die];
        own.many[die][1] = two;
        one[die] = three;
#pragma unroll
        for (int second = 0; second < 6; second++) best.by_dice[die][second] = one[second];
    }
}

typedef void (*finder)(ring &, row &, best_keys &);
template <int... points>
static std::vector<finder> finders_of(std::integer_sequence<int, points...>) {
    return {nullptr, find_best<points + 1>...};
}

// the positions of the pip counts, one after the other
struct levels {
    struct position {
        std::uint8_t points, checkers;
    };
    ring &of;
    std::vector<position> here;             // those of the last pip count
    std::vector<std::uint32_t> counts;      // of all: four bits a point
    std::vector<std::uint32_t> with[2][7];  // by whether the pip count is odd: the rows of those
                                            // with a checker to spare, and on each point
    explicit levels(ring &of) : of(of), counts(POSITIONS) {
        for (auto &lists : with)
            for (auto &list : lists) list.resize(1700);
    }

    // the positions of the next pip count, from a rank on
    void advance(int pips, int rank) {
        const std::uint32_t *from[6];
        std::uint32_t *to[7];
        for (int point = 0; point < 6; point++) from[point] = with[~pips & 1][point].data();
        for (int point = 0; point < 7; point++) to[point] = with[pips & 1][point].data();
        here.resize(1700);
        position *next = here.data();
        for (int a = 0; a <= std::min(15, pips); a++) {
            int left_a = 15 - a, pips_a = pips - a;
            for (int b = 0; b <= left_a && 2 * b <= pips_a; b++) {
                int left_b = left_a - b, pips_b = pips_a - 2 * b;
                for (int c = 0; c <= left_b && 3 * c <= pips_b; c++) {
                    int left_c = left_b - c, pips_c = pips_b - 3 * c;
                    for (int d = 0; d <= left_c && 4 * d <= pips_c; d++) {
                        int left_d = left_c - d, pips_d = pips_c - 4 * d;
                        if (pips_d > 6 * left_d) continue;
                        // five pips a checker leave a multiple of six for these numbers alone
                        for (int e = (6 - pips_d % 6) % 6; 5 * e <= pips_d; e += 6) {
                            int f = (pips_d - 5 * e) / 6;
                            if (e + f > left_d) continue;
                            std::uint32_t place = ring::of_rank(rank);
                            std::uint32_t *down = of.at(place).down;
                            if (a) down[0] = *from[0]++, *to[1]++ = place;
                            if (b) down[1] = *from[1]++, *to[2]++ = place;
                            if (c) down[2] = *from[2]++, *to[3]++ = place;
                            if (d) down[3] = *from[3]++, *to[4]++ = place;
                            if (e) down[4] = *from[4]++, *to[5]++ = place;
                            if (f) down[5] = *from[5]++, *to[6]++ = place;
                            int checkers = 15 - left_d + e + f;
                            if (checkers < 15) *to[0]++ = place;
                            counts[rank++] =
                                (std::uint32_t)(a | b << 4 | c << 8 | d << 12 | e << 16 | f << 20);
                            *next++ = {(std::uint8_t)((a > 0) | (b > 0) << 1 | (c > 0) << 2 |
                                                      (d > 0) << 3 | (e > 0) << 4 | (f > 0) << 5),
                                       (std::uint8_t)checkers};
                        }
                    }
                }
            }
        }
    }
};

// the numbers of all records, decoded. A row is as wide as what is read of it, by positions of at
// most 24 pips more, and has room for a block of words behind that
struct numbers {
    static const int BLOCK = 12;
    std::vector<std::uint32_t> start;
    room<word> words;

    explicit numbers(const layout &of) : start(of.count) {
        std::uint32_t place = 0;
        for (int pips = 0; pips <= of.bound; pips++) {
            int wide = word_of(most_rolls(std::min(pips + 24, MOST_PIPS)) + 1) + BLOCK;
            for (int rank = of.first_of[pips]; rank < of.first_of[pips + 1]; rank++, place += wide)
                start[rank] = place;
        }
        words = zeros<word>(place);
    }

    word *at(int rank) const { return &words[start[rank]]; }
    bool have_one_mean(int rank, int other) const {
        return std::memcmp(at(rank), at(other), 3 * sizeof(word)) == 0;
    }
};

// sums of some words of 21 rows, of which those of the rolls that are no doubles count twice
template <int many>
static void add_words(const word *const *rows, int from, word *to) {
    word sum[many];
    for (int i = 0; i < many; i++) sum[i] = rows[0][from + i];
    for (int roll = 1; roll < ROLLS - DOUBLES; roll++)
        for (int i = 0; i < many; i++) sum[i] += rows[roll][from + i];
    for (int i = 0; i < many; i++) sum[i] += sum[i];
    for (int roll = ROLLS - DOUBLES; roll < ROLLS; roll++)
        for (int i = 0; i < many; i++) sum[i] += rows[roll][from + i];
    for (int i = 0; i < many; i++) to[i] = sum[i];
}

typedef void (*adder)(const word *const *, int, word *);
template <int... many>
static const adder *adders_of(std::integer_sequence<int, many...>) {
    static const adder all[] = {add_words<many + 1>...};
    return all - 1;
}

static void add_all(const word *const *rows, int from, int end, word *to) {
    static const adder *const all = adders_of(std::make_integer_sequence<int, numbers::BLOCK>());
    for (; end - from > numbers::BLOCK; from += numbers::BLOCK, to += numbers::BLOCK)
        add_words<numbers::BLOCK>(rows, from, to);
    all[end - from](rows, from, to);
}

static const std::uint8_t SEAT[ROLLS] = {15, 0, 16, 1,  2,  17, 3,  4,  5,  18, 6,
                                         7,  8, 9,  19, 10, 11, 12, 13, 14, 20};  // doubles last

// a file that is made, or looked at
template <int version, bool is_check>
struct work {
    static const int PLAYS = version == 3 ? 24 : 16, SHARE = version == 1 ? 58 : 42;
    const layout &of;
    unsigned char *bytes;
    ring last;
    levels all{last};
    numbers known;
    wide powers[34];
    std::vector<finder> finders = finders_of(std::make_integer_sequence<int, 63>());
    int most_seen = 0;  // throws of which some position has a count

    work(const layout &of, unsigned char *bytes) : of(of), bytes(bytes), known(of) {
        powers[0] = 1;
        for (int k = 1; k < 23; k++) powers[k] = 36 * powers[k - 1];
    }

    // a word of a record is written, or else looked at
    static void put(unsigned char *at, word value, word &wrong) {
        if (is_check)
            wrong |= read_word(at) ^ value;
        else
            write_word(at, value);
    }
    static void put(unsigned char *at, wide value, word &wrong) {
        put(at, (word)(value >> 64), wrong);
        put(at + 8, (word)value, wrong);
    }
    static void put_none(const unsigned char *from, const unsigned char *end, word &wrong) {
        for (word value; is_check && from < end; from += 8) {
            std::memcpy(&value, from, 8);
            wrong |= value;
        }
    }

    // whether some order of the dice leads from a position to another
    int rank_of(std::uint32_t counts, int pips) const {
        auto in_order = [](std::uint32_t counts) {
            std::uint32_t key = 0;
            for (int point = 0; point < 6; point++) key = key << 4 | (counts >> (4 * point) & 15);
            return key;
        };
        const std::uint32_t *first = &all.counts[of.first_of[pips]],
                            *end = &all.counts[of.first_of[pips + 1]];
        return (int)(std::lower_bound(first, end, counts,
                                      [&](std::uint32_t a, std::uint32_t b) {
                                          return in_order(a) < in_order(b);
                                      }) -
                     all.counts.data());
    }
    bool leads(int from, int pips, int to, const int *dice, int left) const {
        if (left == 0 || from == 0) return from == to;
        std::uint32_t counts = all.counts[from];
        int highest = 5;
        while ((counts >> (4 * highest) & 15) == 0) highest--;
        for (int point = 0; point <= highest; point++) {
            if ((counts >> (4 * point) & 15) == 0 || (point < dice[0] && point != highest))
                continue;
            std::uint32_t next = counts - (std::uint32_t(1) << (4 * point));
            int down = std::min(dice[0] + 1, point + 1);
            if (down <= point) next += std::uint32_t(1) << (4 * (point - down));
            if (leads(rank_of(next, pips - down), pips - down, to, dice + 1, left - 1))
                return true;
        }
        return false;
    }

    // another recorded play than the best of the lowest rank: a result with the same mean
    bool is_as_good(int rank, int pips, int high, int low, int best, int to) const {
        int once[2] = {high, low}, back[2] = {low, high}, four[4] = {low, low, low, low};
        if (to >= rank || !known.have_one_mean(to, best)) return false;
        return high == low ? leads(rank, pips, to, four, 4)
                           : leads(rank, pips, to, once, 2) || leads(rank, pips, to, back, 2);
    }

    // the plays of a record, and the rows that they lead to
    bool plays(int rank, int pips, const best_keys &best, unsigned char *record,
               const word **rows) const {
        unsigned char *at = record + PLAYS;
        std::uint16_t ranks[ROLLS], others = 0;
        for (int high = 0, roll = 0; high < 6; high++)
            for (int low = 0; low <= high; low++, roll++) {
                double key = high == low
                                 ? best.by_dice[low][low]
                                 : lesser(best.by_dice[high][low], best.by_dice[low][high]);
                word bits;
                std::memcpy(&bits, &key, 8);
                std::uint16_t to = (std::uint16_t)bits, told = __builtin_bswap16(to), stored;
                std::memcpy(&stored, at + 2 * roll, 2);
                if (is_check)
                    others |= stored ^ told, ranks[roll] = to;
                else
                    std::memcpy(at + 2 * roll, &told, 2);
                rows[SEAT[roll]] = known.at(to);
            }
        return !is_check || others == 0 || other_plays(rank, pips, at, ranks, rows);
    }
    __attribute__((noinline)) bool other_plays(int rank, int pips, const unsigned char *at,
                                               const std::uint16_t *best,
                                               const word **rows) const {
        for (int high = 0, roll = 0; high < 6; high++)
            for (int low = 0; low <= high; low++, roll++) {
                int to = at[2 * roll] << 8 | at[2 * roll + 1];
                if (to == best[roll]) continue;
                if (!is_as_good(rank, pips, high, low, best[roll], to)) return false;
                rows[SEAT[roll]] = known.at(to);
            }
        return true;
    }

    // the mean: one roll, and that of what the rolls lead to
    void mean(int rank, int pips, const word *const *rows, unsigned char *record, row &here,
              word &wrong) {
        wide upper = 0;
        word lower = 0;
        for (int roll = 0; roll < ROLLS; roll++) {
            wide value;
            if (roll == ROLLS - DOUBLES) upper += upper, lower += lower;
            std::memcpy(&value, rows[roll], sizeof value);
            upper += value;
            lower += rows[roll][2];
        }
        upper += 36 * WHOLE;
        if (pips <= 58) {
            // a game is over within 22 rolls, so nothing is left of a 36th
            upper = thirty_sixth(upper);
            lower = 0;
        } else {
            // 2^64 is 16, and a multiple of 36
            word rest = ((word)(upper >> 64) % 36 * 16 + (word)upper % 36) % 36;
            upper = thirty_sixth(upper - rest);
            lower = (rest * PART + lower) / 36;
            if (lower >= PART) lower -= PART, upper++;
        }
        word *own = known.at(rank);
        std::memcpy(own, &upper, sizeof upper);
        own[2] = lower;
        word key = (word)(upper >> 72) << 16 | (word)rank;
        std::memcpy(&here.own, &key, 8);
        put(record, upper, wrong);
        if (version == 3) put(record + 16, lower, wrong);
    }

    // the counts: of one throw more than what the rolls lead to. The last of them that is one
    int counts(int rank, int pips, int checkers, const word *const *rows, unsigned char *record,
               word &all_wrong) const {
        word wrong = 0;
        int k = (checkers + 3) / 4 - 1, last = std::min(most_seen, most_rolls(pips) - 1);
        unsigned char *at = record + (version == 3 ? 66 + 8 * k : SHARE + 16 * (k + 1));
        put_none(record + (version == 3 ? 66 : 58), at, wrong);
        word sums[80], some = 0;
        add_all(rows, word_of(k), word_of(last + 1), sums);
        const word *sum = sums;
        word *own = known.at(rank) + COUNTS + k + 1;
        for (int end = std::min(last, 10); k <= end; k++) {
            some = *own++ = *sum++;
            if (version == 3) {
                put(at, some, wrong);
                at += 8;
            } else {
                put(at, some * powers[21 - k], wrong);
                at += 16;
            }
        }
        for (; k <= last; k++) {
            // those of 11 throws have one part, and those of more than 22 an upper one of two
            // words
            word upper = k == 11 ? 0 : *sum++, lower = *sum++, carry = lower / PART;
            *own++ = upper += carry;
            *own++ = lower -= carry * PART;
            some = upper | lower;
            if (version < 3) {
                put(at, upper * powers[32 - k] + lower * powers[21 - k], wrong);
                at += 16;
                continue;
            }
            if (k > 21) {
                put(at, (word)0, wrong);
                at += 8;
            }
            put(at, upper, wrong);
            put(at + 8, lower, wrong);
            at += 16;
        }
        put_none(at, record + of.length[pips], wrong);
        all_wrong |= wrong;
        return some ? k : 0;
    }

    // the record of the finished position: all is none but its share of no roll
    bool finished() {
        unsigned char *record = bytes + of.place[0];
        known.at(0)[word_of(0)] = 1;
        all.advance(0, 0);
        word wrong = 0;
        if (version == 1) put(record + 58, WHOLE, wrong);
        for (std::size_t at = 0; is_check && at < of.length[0]; at++)
            if (version != 1 || at < 58 || at >= 74) wrong |= record[at];
        return wrong == 0;
    }

    // the first rank whose record has a fault, or -1
    int run() {
        if (!finished()) return 0;
        for (int pips = 1; pips <= of.bound; pips++) {
            int rank = of.first_of[pips], seen = 0;
            unsigned char *record = bytes + of.place[pips];
            all.advance(pips, rank);
            for (int i = 0; rank < of.first_of[pips + 1]; i++, rank++, record += of.length[pips]) {
                row &here = last.at(ring::of_rank(rank));
                best_keys best;
                finders[all.here[i].points](last, here, best);
                const word *rows[ROLLS];
                word wrong = 0;
                if (!plays(rank, pips, best, record, rows)) return rank;
                mean(rank, pips, rows, record, here, wrong);
                seen =
                    std::max(seen, counts(rank, pips, all.here[i].checkers, rows, record, wrong));
                if (wrong) return rank;
            }
            most_seen = std::max(most_seen, seen);
        }
        return -1;
    }
};

template <bool is_check>
static int run(const layout &of, unsigned char *bytes) {
    return of.version == 1   ? work<1, is_check>(of, bytes).run()
           : of.version == 2 ? work<2, is_check>(of, bytes).run()
                             : work<3, is_check>(of, bytes).run();
}

static void build(int version, int bound, const char *path) {
    layout of(version, bound);
    room<unsigned char> bytes = zeros<unsigned char>(of.end());
    of.put_header(bytes.get());
    run<false>(of, bytes.get());
    std::FILE *file = std::fopen(path, "wb");
    if (!file || std::fwrite(bytes.get(), 1, of.end(), file) != of.end() || std::fclose(file) != 0)
        fail("write");
}

struct file_bytes {
    static const std::size_t MOST = 20000000;
    room<unsigned char> bytes = zeros<unsigned char>(MOST + 1);
    std::size_t count;

    explicit file_bytes(const char *path) {
        std::FILE *file = std::fopen(path, "rb");
        if (!file) fail("open");
        count = std::fread(bytes.get(), 1, MOST + 1, file);
        std::fclose(file);
    }
};

static int check(const char *path) {
    static const int MOST[] = {0, 44, 58, MOST_PIPS};
    file_bytes file(path);
    unsigned char *bytes = file.bytes.get(), header[HEADER];
    if (file.count < HEADER || bytes[9] < 1 || bytes[9] > 3 || bytes[11] > MOST[bytes[9]])
        fail("header");
    layout of(bytes[9], bytes[11]);
    of.put_header(header);
    if (std::memcmp(header, bytes, HEADER) != 0 || file.count != of.end()) fail("header");
    return run<true>(of, bytes);
}

static char pairs[200];  // 00 to 99

// numbers in decimal, at the end of a text
struct text {
    char *end;

    void put(const char *word, size_t length) {
        std::memcpy(end, word, length);
        end += length;
    }

    // two digits at a time
    void put(word number, int least) {
        char digits[20];
        int place = 20;
        while (number > 9) {
            std::memcpy(digits + (place -= 2), pairs + 2 * (number % 100), 2);
            number /= 100;
        }
        if (number > 0) digits[--place] = (char)('0' + number);
        while (place > 20 - least) digits[--place] = '0';
        put(digits + place, 20 - place);
    }

    void put(wide number) {
        static const word limit = 10000000000000000000ull;
        if (number < limit) return put((word)number, 1);
        wide upper = number / limit;
        if (upper < limit) {
            put((word)upper, 1);
        } else {
            put((word)(upper / limit), 1);
            put((word)(upper % limit), 19);
        }
        put((word)(number % limit), 19);
    }
};

// a numerator over 2^twos 3^threes in lowest terms
static void put_fraction(text &to, wide numerator, int twos, int threes,
                         const std::vector<std::string> &denominators) {
    while (twos > 0 && ((word)numerator & 1) == 0) {
        int some = std::min(twos, __builtin_ctzll((word)numerator | word(1) << 63));
        numerator >>= some;
        twos -= some;
    }
    static const wide third = ((wide)0xaaaaaaaaaaaaaaaaull << 64) | 0xaaaaaaaaaaaaaaabull,
                      most = ~(wide)0 / 3;
    while (threes > 0 && numerator * third <= most) {
        numerator *= third;
        threes--;
    }
    to.put(numerator);
    *to.end++ = '/';
    const std::string &under = denominators[46 * twos + threes];
    to.put(under.data(), under.size());
}

static void answer(const char *path) {
    file_bytes file(path);
    const unsigned char *bytes = file.bytes.get();
    layout of(1, bytes[11]);
    ring last;
    levels all(last);
    room<std::uint16_t> by_counts = zeros<std::uint16_t>(1 << 24);
    for (int pips = 0; pips <= of.bound; pips++) all.advance(pips, of.first_of[pips]);
    for (int rank = 0; rank < of.count; rank++) by_counts[all.counts[rank]] = (std::uint16_t)rank;
    for (int number = 0; number < 100; number++) {
        pairs[2 * number] = (char)('0' + number / 10);
        pairs[2 * number + 1] = (char)('0' + number % 10);
    }
    std::vector<std::string> denominators(46 * 46);
    wide power = 1;
    for (int threes = 0; threes < 46; threes++, power *= 3) {
        wide value = power;
        for (int twos = 0; twos < 46; twos++, value *= 2) {
            char room[64];
            text to = {room};
            to.put(value);
            denominators[46 * twos + threes] = std::string(room, to.end);
        }
    }
    std::vector<char> out(1 << 16);
    text to = {out.data()};
    char line[256];
    while (std::fgets(line, sizeof line, stdin)) {
        std::uint32_t key = 0;
        const char *from = line + 5;
        for (int point = 0; point < 6; point++) {
            int here = 0;
            while (*from >= '0') here = 10 * here + *from++ - '0';
            from++;
            key |= (std::uint32_t)here << (4 * point);
        }
        wide mean = read_wide(&bytes[HEADER + 426 * (std::size_t)by_counts[key]]);
        wide under = 6 * WHOLE, over = 49 * mean;
        word pips = (word)(over / under);
        word thousandths =
            pips * 1000 + (word)(((over - pips * under) * 1000 + under / 2) / under);
        to.put("mean ", 5);
        put_fraction(to, mean, 44, 44, denominators);
        to.put(" epc ", 5);
        put_fraction(to, over, 45, 45, denominators);
        *to.end++ = ' ';
        to.put(thousandths / 1000, 1);
        *to.end++ = '.';
        to.put(thousandths % 1000, 3);
        *to.end++ = '\n';
        if (to.end > out.data() + out.size() - 512) {
            if (std::fwrite(out.data(), 1, to.end - out.data(), stdout) == 0) fail("write");
            to.end = out.data();
        }
    }
    if (to.end > out.data() && std::fwrite(out.data(), 1, to.end - out.data(), stdout) == 0)
        fail("write");
}

int main(int count, char **words) {
    std::string work = count > 2 ? words[1] : "";
    if (work == "build" && count == 5) {
        build(std::atoi(words[2]), std::atoi(words[3]), words[4]);
    } else if (work == "check") {
        int rank = check(words[2]);
        if (rank >= 0) {
            std::printf("refused at rank %d\n", rank);
            return 1;
        }
        std::puts("ok");
    } else if (work == "answer") {
        answer(words[2]);
    } else {
        fail("usage: build VERSION PIPS FILE, check FILE, or answer FILE");
    }
}
