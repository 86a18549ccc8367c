/* Bad input from C: whatever is wrong, a call answers the number of the first refusal that fits, and leaves every lent
 * byte as it was. What is lent is allocated to the byte, so that valgrind or a sanitizer sees any reach beyond it; and good
 * input in memory that nothing has written, so that valgrind sees any use of what was never written. */
#include "goqhari.h"

#include <math.h>
#include <stdio.h>
#include <stdlib.h>
#include <string.h>

enum { SAMPLES = 96 };

/* words of a strip: its position, and the lane's tags and flags, each 0 or 1 */
enum {
    POSITION = 0,
    LANE_WORDS_AT = 4,
    GRADED = LANE_WORDS_AT,
    PAD,
    DARKENED,
    DUCKED,
    DAYLIGHT_SHAPE = LANE_WORDS_AT + 7,
    RAIN_SHAPE = LANE_WORDS_AT + 10
};

/* numbers of a strip: the lane's that are f32 */
enum {
    LANE_NUMBERS_AT = 23,
    CORNER = LANE_NUMBERS_AT,
    DAY_CORNER,
    NIGHT_DRIVE,
    DAY_DRIVE,
    SWELL_RATE,
    SWELL_DEPTH,
    DAYLIGHT = LANE_NUMBERS_AT + 8,
    RAIN
};

static const uint64_t END = GOQHARI_MAX_POSITION;

/* ---- what is lent, and how it was */

static double *numbers, *store;
static uint64_t *words, *counts, *gains, *rests;
static float *frames;
static double samples[SAMPLES];

static struct lent {
    void *bytes, *before;
    size_t size;
} lent[7];

static int tried, wrong;

static void *lend(int place, size_t size) {
    lent[place] = (struct lent){malloc(size), malloc(size), size};
    if (!lent[place].bytes || !lent[place].before) exit(2);
    memset(lent[place].bytes, 0xa5, size);
    return lent[place].bytes;
}

static void keep(void) {
    for (int i = 0; i < 7; i++) memcpy(lent[i].before, lent[i].bytes, lent[i].size);
}

static int kept(void) {
    for (int i = 0; i < 7; i++)
        if (memcmp(lent[i].before, lent[i].bytes, lent[i].size)) return 0;
    return 1;
}

/* A declined call answers its number and alters nothing. */
static void declined(const char *what, uint64_t number, uint64_t answer) {
    tried++;
    if (answer == number && kept()) return;
    wrong++;
    printf("refusals: %s: %d, not %d%s\n", what, (int)answer, (int)number, kept() ? "" : ", and lent bytes altered");
}

static void accepted(const char *what, uint64_t answer) {
    tried++;
    if (!answer) return;
    wrong++;
    printf("refusals: %s: %d, not accepted\n", what, (int)answer);
}

/* ---- the four calls, by what is lent */

static struct lengths {
    size_t numbers, words, store, counts;
} whole = {GOQHARI_NUMBERS, GOQHARI_WORDS, GOQHARI_STORE_NUMBERS, GOQHARI_STORE_COUNTS};

/* What open is given beside the stores. */
struct opening {
    float singles[8];
    double doubles[4];
    uint64_t flags;
    const uint64_t *positions;
    size_t positions_len;
    const double *values;
    size_t values_len;
    const uint64_t *kicks;
    size_t kicks_len;
};

static const uint64_t some_positions[] = {10, 74, 74};
static const double some_values[] = {1, 0, 0.5};
static const uint64_t some_kicks[] = {0, 40, 40, 4000};

/* Graded, swelling, darkened, ducked, swept: every number is looked at but the fixed drive. */
static const struct opening good = {
    {900, 9000, 1.2f, 3, 0.3f, 0.2f, 0.3f, 0.6f}, {1, 1.5, 0.8, 0.3}, 15, some_positions, 3, some_values, 3, some_kicks, 4,
};

static uint64_t open_in(struct opening o, struct lengths of) {
    return goqhari_open(o.singles, o.doubles, o.flags, o.positions, o.positions_len, o.values, o.values_len, o.kicks,
                        o.kicks_len, numbers, of.numbers, words, of.words, store, of.store, counts, of.counts);
}

static uint64_t run_in(size_t len, size_t frames_len, size_t gains_len, struct lengths of) {
    return goqhari_run(numbers, of.numbers, words, of.words, samples, len, 1, frames, frames_len, gains, gains_len, store,
                       of.store, counts, of.counts);
}

static uint64_t latch_in(float daylight, uint64_t grading, float rain, uint64_t darkening, struct lengths of) {
    return goqhari_latch(numbers, of.numbers, words, of.words, daylight, grading, rain, darkening, store, of.store, counts,
                         of.counts);
}

static uint64_t rest_in(struct lengths of) {
    return goqhari_rest(numbers, of.numbers, words, of.words, rests, store, of.store, counts, of.counts);
}

static uint64_t run(void) { return run_in(SAMPLES, 2 * SAMPLES, SAMPLES, whole); }

/* A fresh strip that has played a little. */
static void fresh(void) {
    for (int i = 0; i < SAMPLES; i++) samples[i] = 1.1 * sin(0.3 * i);
    accepted("open", open_in(good, whole));
    accepted("run", run());
    keep();
}

/* Run, latch and rest all decline. */
static void all_decline(const char *what, uint64_t number, struct lengths of) {
    declined(what, number, run_in(SAMPLES, 2 * SAMPLES, SAMPLES, of));
    declined(what, number, latch_in(0.5f, 10, 0.5f, 10, of));
    declined(what, number, rest_in(of));
}

/* ---- what is tried */

static void short_lengths(void) {
    struct lengths of[4] = {whole, whole, whole, whole};
    of[0].store--;
    of[1].counts--;
    of[2].numbers--;
    of[3].words--;
    const char *what[] = {"a short store", "a short count store", "too few numbers", "too few words"};
    struct opening bad = good;
    bad.doubles[3] = 2;
    for (int i = 0; i < 4; i++) {
        all_decline(what[i], 1, of[i]);
        declined(what[i], 1, open_in(good, of[i]));
        declined("short before a bad number", 1, open_in(bad, of[i]));
    }
    struct lengths none = {0, 0, 0, 0};
    all_decline("nothing lent", 1, none);
    declined("nothing lent", 1, open_in(good, none));
    words[GRADED] = 2;
    keep();
    for (int i = 0; i < 4; i++) all_decline("short before a malformed strip", 1, of[i]);
    fresh();
}

static void bad_numbers(void) {
    /* each number's ends, of the eight f32 and then the four f64; the fixed drive is tried below */
    static const double ends[12][2] = {{20, 20000}, {20, 20000}, {0.1, 8}, {0.1, 8}, {0, 20}, {0, 1}, {0, 1}, {0, 1},
                                       {0.1, 8},    {0, 16},     {0, 16},  {0, 1}};
    for (int i = 0; i < 12; i++) {
        struct opening bad = good;
        if (i == 8) bad.flags &= ~1ull;
        double outside[] = {NAN, INFINITY, -INFINITY, -1, 20001};
        for (int k = 0; k < 7; k++) {
            if (i < 8) {
                float low = (float)ends[i][0], high = (float)ends[i][1];
                /* the f32 nearest to 0.1 is above it, and the one below is below it */
                bad.singles[i] = k < 5 ? (float)outside[k] : k < 6 ? nextafterf(low, -1) : nextafterf(high, 1e9f);
            } else {
                bad.doubles[i - 8] = k < 5 ? outside[k] : k < 6 ? nextafter(ends[i][0], -1) : nextafter(ends[i][1], 1e9);
            }
            declined("a setup number", 2, open_in(bad, whole));
        }
    }
    for (int bit = 4; bit < 64; bit++) {
        struct opening bad = good;
        bad.flags |= 1ull << bit;
        declined("an unknown flag", 2, open_in(bad, whole));
    }
    struct opening bad = good;
    bad.singles[0] = NAN;
    bad.kicks_len = 2000;
    declined("a bad number before a long list", 2, open_in(bad, whole));
}

static void bad_lists(void) {
    static uint64_t many[1025];
    static double half[1025];
    for (int i = 0; i < 1025; i++) half[i] = 0.5;
    struct opening o = good;
    o.values_len = 2;
    declined("fewer values than positions", 3, open_in(o, whole));
    o.positions_len = 0;
    declined("values and no positions", 3, open_in(o, whole));
    o = good;
    o.positions = many, o.values = half, o.positions_len = o.values_len = 257;
    declined("257 points", 3, open_in(o, whole));
    o = good;
    o.kicks = many, o.kicks_len = 1025;
    declined("1,025 kicks", 3, open_in(o, whole));
    const uint64_t falling[] = {5, 4, 9}, far[] = {1, 2, END + 1};
    const double bad[][3] = {{NAN, 0, 0}, {0, 1.5, 0}, {0, 0, -0.25}, {0, INFINITY, 0}};
    o = good;
    for (int i = 0; i < 4; i++) {
        o.values = bad[i];
        declined("a sweep value", 3, open_in(o, whole));
    }
    o = good;
    o.positions = falling;
    declined("falling points", 3, open_in(o, whole));
    o.positions = far;
    declined("a point past 2^32", 3, open_in(o, whole));
    o = good;
    o.positions = many, o.values = half, o.positions_len = o.values_len = 256;
    accepted("256 points on one sample", open_in(o, whole));
    fresh();
    o = good;
    o.kicks_len = 3;
    o.kicks = falling;
    declined("falling kicks", 3, open_in(o, whole));
    o.kicks = far;
    declined("a kick past 2^32", 3, open_in(o, whole));
}

static void bad_runs(void) {
    size_t n = SAMPLES - 1;
    size_t outputs[][2] = {{2 * n - 1, n}, {2 * n + 1, n}, {2 * n, n - 1}, {2 * n, n + 1}, {0, 0}, {n, n}, {2 * n, 0}};
    for (int i = 0; i < 7; i++)
        declined("output lengths", 5, run_in(n, outputs[i][0], outputs[i][1], whole));
    declined("outputs of an empty run", 5, run_in(0, 2, 1, whole));
    double bad[] = {NAN, INFINITY, -INFINITY, nextafter(1024, 2000), -nextafter(1024, 2000), 1e300};
    for (int i = 0; i < 6; i++)
        for (int at = 0; at < SAMPLES; at += SAMPLES - 1) {
            double was = samples[at];
            samples[at] = bad[i];
            declined("a sample", 7, run());
            declined("output lengths before a sample", 5, run_in(SAMPLES, SAMPLES, SAMPLES, whole));
            samples[at] = was;
        }
    accepted("an empty run", run_in(0, 0, 0, whole));
    if (!kept()) wrong++, puts("refusals: an empty run altered what was lent");
    words[POSITION] = END - 1;
    keep();
    declined("two samples before 2^32", 6, run_in(2, 4, 2, whole));
    samples[0] = NAN;
    declined("the end before a sample", 6, run_in(2, 4, 2, whole));
    samples[0] = 1024;
    accepted("one sample of 1,024 before 2^32", run_in(1, 2, 1, whole));
    keep();
    declined("a sample at 2^32", 6, run_in(1, 2, 1, whole));
    accepted("an empty run at 2^32", run_in(0, 0, 0, whole));
    words[POSITION] = END + 1;
    keep();
    all_decline("a position past 2^32", 4, whole);
}

static void bad_latches(void) {
    float bad[] = {NAN, INFINITY, -INFINITY, -0.001f, nextafterf(1, 2), -nextafterf(0, 1)};
    for (int i = 0; i < 6; i++) {
        declined("daylight", 8, latch_in(bad[i], 10, 0, 10, whole));
        declined("rain", 8, latch_in(0, 10, bad[i], 10, whole));
    }
    declined("a length", 8, latch_in(0, END + 1, 0, 10, whole));
    declined("a length", 8, latch_in(0, 10, 0, UINT64_MAX, whole));
    accepted("the longest lengths", latch_in(1, END, 1, END, whole));
}

/* ---- strips that open never made */

/* What the packing itself declines: a tag or a flag above 1, and a number that is no f32 where one belongs. */
static void bad_packing(void) {
    static const int tags[] = {GRADED, PAD, DARKENED, DUCKED, DAYLIGHT_SHAPE, RAIN_SHAPE};
    static const int f32s[] = {CORNER, DAY_CORNER, NIGHT_DRIVE, DAY_DRIVE, SWELL_RATE, SWELL_DEPTH, DAYLIGHT, RAIN};
    for (int i = 0; i < 6; i++) {
        words[tags[i]] = i % 2 ? UINT64_MAX : 2;
        keep();
        all_decline("a tag or a flag above 1", 4, whole);
        fresh();
    }
    for (int i = 0; i < 8; i++) {
        numbers[f32s[i]] = nextafter(numbers[f32s[i]], 1e9);
        keep();
        all_decline("no f32 where one belongs", 4, whole);
        fresh();
    }
}

/* A number that its tag leaves out may be anything. */
static void left_out(void) {
    static const int out[] = {NIGHT_DRIVE, DAY_DRIVE, SWELL_RATE, SWELL_DEPTH};
    static const double any[] = {0.1, -1, 1e300, 0};
    struct opening plain = good;
    plain.flags &= ~(uint64_t)(GOQHARI_GRADED | GOQHARI_PAD);
    accepted("open of a fixed tone and no pad", open_in(plain, whole));
    for (int i = 0; i < 4; i++) {
        numbers[out[i]] = NAN;
        accepted("rest with a number left out that is NaN", rest_in(whole));
        numbers[out[i]] = any[i];
        accepted("run with any number left out", run());
        numbers[out[i]] = -any[i];
        accepted("latch with any number left out", latch_in(0.5f, 10, 0.5f, 10, whole));
    }
    fresh();
}

static uint64_t drawn(void) {
    static uint64_t state = 1;
    state += 0x9e3779b97f4a7c15;
    uint64_t z = (state ^ state >> 30) * 0xbf58476d1ce4e5b9;
    z = (z ^ z >> 27) * 0x94d049bb133111eb;
    return z ^ z >> 31;
}

/* An element of the strip or of its stores, as bits. */
static void spoil(void) {
    const struct {
        void *bytes;
        size_t len;
    } all[] = {{numbers, GOQHARI_NUMBERS}, {words, GOQHARI_WORDS}, {store, GOQHARI_STORE_NUMBERS}, {counts, GOQHARI_STORE_COUNTS}};
    static const uint64_t telling[] = {0, 1, 882, 883, 884, 1ull << 32, UINT64_MAX, 0x7ff8000000000000, 0x3ff0000000000001};
    unsigned which = drawn() % 4;
    uint64_t bits = drawn() % 2 ? drawn() >> drawn() % 64 : telling[drawn() % 9];
    memcpy((char *)all[which].bytes + 8 * (drawn() % all[which].len), &bits, 8);
}

/* Any answer will do, but a declined call alters nothing. */
static void survived(const char *what, uint64_t answer) {
    tried++;
    if (answer <= 8 && (!answer || kept())) {
        if (!answer) keep();
        return;
    }
    wrong++;
    printf("refusals: %s: %d%s\n", what, (int)answer, kept() ? "" : ", and lent bytes altered");
}

static void garbage(int rounds) {
    memset(numbers, 0, sizeof *numbers * GOQHARI_NUMBERS);
    memset(words, 0, sizeof *words * GOQHARI_WORDS);
    keep();
    all_decline("a zeroed strip", 4, whole);
    memset(numbers, 0xff, sizeof *numbers * GOQHARI_NUMBERS);
    memset(words, 0xff, sizeof *words * GOQHARI_WORDS);
    keep();
    all_decline("a strip of ones", 4, whole);
    for (int i = 0; i < rounds; i++) {
        for (int k = 0; k < GOQHARI_NUMBERS; k++) {
            uint64_t bits = drawn();
            memcpy(numbers + k, &bits, 8);
        }
        for (int k = 0; k < GOQHARI_WORDS; k++) words[k] = drawn() >> drawn() % 64;
        keep();
        all_decline("a strip of noise", 4, whole);
    }
    for (int i = 0; i < 10 * rounds; i++) {
        if (i % 8 == 0) fresh();
        spoil();
        keep();
        survived("latch of a spoilt strip", latch_in(0.25f, 7, 0.75f, 9, whole));
        survived("run of a spoilt strip", run_in(40, 80, 40, whole));
        survived("rest of a spoilt strip", rest_in(whole));
    }
}

/* ---- memory that nothing has written */

static void *unwritten(size_t size) {
    void *bytes = malloc(size ? size : 1);
    if (!bytes) exit(2);
    return bytes;
}

/* A strip of which only what the flags name is set, in lists of just their length, played in runs of so many samples. */
static void play_unwritten(uint64_t flags, const uint64_t *kicked, size_t kicks_len, size_t points, size_t len) {
    float *singles = unwritten(8 * sizeof *singles);
    double *doubles = unwritten(4 * sizeof *doubles), *values = unwritten(points * sizeof *values);
    uint64_t *positions = unwritten(points * sizeof *positions), *kicks = unwritten(kicks_len * sizeof *kicks);
    double *numbers = unwritten(GOQHARI_NUMBERS * sizeof *numbers), *store = unwritten(GOQHARI_STORE_NUMBERS * sizeof *store);
    uint64_t *words = unwritten(GOQHARI_WORDS * sizeof *words), *counts = unwritten(GOQHARI_STORE_COUNTS * sizeof *counts);
    singles[0] = good.singles[0];
    if (flags & GOQHARI_GRADED)
        for (int i = 1; i < 4; i++) singles[i] = good.singles[i];
    else
        doubles[0] = good.doubles[0];
    if (flags & GOQHARI_PAD)
        for (int i = 4; i < 6; i++) singles[i] = good.singles[i];
    for (int i = 6; i < 8; i++) singles[i] = good.singles[i];
    for (int i = 1; i < 4; i++) doubles[i] = good.doubles[i];
    for (size_t i = 0; i < points; i++) positions[i] = 20 * (i / 2), values[i] = i % 2 ? 0.25 : 0.75;
    for (size_t i = 0; i < kicks_len; i++) kicks[i] = kicked[i];
    accepted("open in memory that nothing has written",
             goqhari_open(singles, doubles, flags, positions, points, values, points, kicks, kicks_len, numbers, GOQHARI_NUMBERS,
                          words, GOQHARI_WORDS, store, GOQHARI_STORE_NUMBERS, counts, GOQHARI_STORE_COUNTS));
    free(singles), free(doubles), free(values), free(positions), free(kicks);
    for (int at = 0; at < SAMPLES; at += (int)len) {
        double *in = unwritten(len * sizeof *in);
        float *out = unwritten(2 * len * sizeof *out);
        uint64_t *gain = unwritten(len * sizeof *gain), *at_rest = unwritten(sizeof *at_rest);
        for (size_t i = 0; i < len; i++) in[i] = samples[((size_t)at + i) % SAMPLES];
        accepted("run in memory that nothing has written",
                 goqhari_run(numbers, GOQHARI_NUMBERS, words, GOQHARI_WORDS, in, len, at % 5 != 4, out, 2 * len, gain, len, store,
                             GOQHARI_STORE_NUMBERS, counts, GOQHARI_STORE_COUNTS));
        accepted("latch in memory that nothing has written",
                 goqhari_latch(numbers, GOQHARI_NUMBERS, words, GOQHARI_WORDS, at % 2 ? 0.5f : 0.25f, 10, at % 3 ? 0.5f : 1, 0, store,
                               GOQHARI_STORE_NUMBERS, counts, GOQHARI_STORE_COUNTS));
        accepted("rest in memory that nothing has written",
                 goqhari_rest(numbers, GOQHARI_NUMBERS, words, GOQHARI_WORDS, at_rest, store, GOQHARI_STORE_NUMBERS, counts,
                              GOQHARI_STORE_COUNTS));
        int odd = at_rest[0] > 1;
        for (size_t i = 0; i < len; i++) odd |= gain[i] > GOQHARI_GAIN_UNIT || out[2 * i] != out[2 * i] || out[2 * i + 1] != out[2 * i + 1];
        if (odd) wrong++, puts("refusals: an output that no strip has");
        free(in), free(out), free(gain), free(at_rest);
    }
    free(numbers), free(words), free(store), free(counts);
}

static void never_written(void) {
    static const uint64_t kicks[] = {0, 0, 1, 1, 3, 40, 40, 41};
    static const size_t from[] = {0, 2, 2, 0, 4, 5}, count[] = {0, 1, 2, 3, 1, 3}, lens[] = {1, 2, 3, SAMPLES};
    for (uint64_t flags = 0; flags < 16; flags++)
        for (int k = 0; k < 6; k++)
            for (int i = 0; i < 4; i++) play_unwritten(flags, kicks + from[k], count[k], (size_t)k, lens[i]);
}

int main(int count, char **args) {
    numbers = lend(0, sizeof *numbers * GOQHARI_NUMBERS);
    words = lend(1, sizeof *words * GOQHARI_WORDS);
    store = lend(2, sizeof *store * GOQHARI_STORE_NUMBERS);
    counts = lend(3, sizeof *counts * GOQHARI_STORE_COUNTS);
    frames = lend(4, sizeof *frames * 2 * SAMPLES);
    gains = lend(5, sizeof *gains * SAMPLES);
    rests = lend(6, sizeof *rests);
    fresh();
    short_lengths();
    bad_numbers();
    bad_lists();
    bad_latches();
    fresh();
    bad_runs();
    fresh();
    bad_packing();
    left_out();
    never_written();
    garbage(count > 1 ? atoi(args[1]) : 40);
    for (int i = 0; i < 7; i++) free(lent[i].bytes), free(lent[i].before);
    printf("refusals: %d calls, %d wrong\n", tried, wrong);
    return wrong ? 1 : 0;
}
