/*
 * Goqhari: a tape lane, a plate and a look-ahead ceiling at 44,100 Hz, mono in and stereo out.
 *
 * Link build/libgoqhari.a; of the C library it calls memcpy and memset alone. It has no heap and no global: all that a strip is
 * stands in memory that the caller lends to each call, and nothing is kept from one call to the next but what stands there. So calls
 * on different strips may run at once, in any threads; calls on one strip come one after the other.
 *
 * A strip is four lists, which the caller owns, allocates (no alignment beyond the type's own) and frees:
 *     numbers   GOQHARI_NUMBERS doubles         the strip, packed
 *     words     GOQHARI_WORDS uint64_t
 *     store     GOQHARI_STORE_NUMBERS doubles   its lines, needs, frames on their way and sweep values
 *     counts    GOQHARI_STORE_COUNTS uint64_t   its kicks, steps and sweep positions
 * Each may be longer: what lies behind is never touched. goqhari_open lays the strip there; each later call is to be lent them as the
 * call before left them. A strip may be moved or saved by copying the four lists.
 *
 * Every call answers GOQHARI_OK or the number of a refusal. A refusal alters nothing that was lent. Grounds are looked at in the
 * order of their numbers, and the first that fits is the answer. Whatever the numbers in the lists are, a call answers.
 *
 * The caller's duty: a pointer is not null, not even that of an empty list, and is aligned for its type; its length is not more than
 * what is there; and no list that a call may write overlaps another that is lent to the same call. Floating-point arithmetic is in the
 * mode that a C program starts in: it rounds to nearest, and subnormal numbers are neither flushed to zero nor read as zero. Many audio
 * hosts set both (FTZ and DAZ of MXCSR) in the threads that they call from: clear them around a call, since with them some ducked
 * signals, rest answers and refusals differ. Nothing else is assumed.
 *
 * A length is a uint64_t on every machine, also where a size_t has 32 bits.
 */
#ifndef GOQHARI_H
#define GOQHARI_H

#include <stdint.h>

#ifdef __cplusplus
extern "C" {
#endif

/* ---- sizes and limits */

/* Samples a second. */
#define GOQHARI_RATE 44100
/* The strip's numbers, and its words. */
#define GOQHARI_NUMBERS 87
#define GOQHARI_WORDS 19
/* The sample store's numbers, and the count store's words. */
#define GOQHARI_STORE_NUMBERS 49152
#define GOQHARI_STORE_COUNTS 4096
/* The most sweep points, and the most kicks. */
#define GOQHARI_MAX_POINTS 256
#define GOQHARI_MAX_KICKS 1024
/* The last position: a sweep point, a kick or a ramp's length is at most this, and a strip takes so many samples. */
#define GOQHARI_MAX_POSITION UINT64_C(4294967296)
/* The greatest size of a sample. */
#define GOQHARI_MAX_SAMPLE 1024.0
/* How many samples later a sample's frame is delivered: the ceiling looks so far ahead. */
#define GOQHARI_LATENCY 220
/* A gain is its count over this, 221 * 2^40. */
#define GOQHARI_GAIN_UNIT UINT64_C(242992069738496)
/* What no delivered side exceeds in size, a NaN apart. Before the clamp no side exceeds it by more than one part in 2^51 where it comes from a mixed frame
   that is finite and at most 2^100 (docs/DATASHEET.md, 'before the clamp'). */
#define GOQHARI_CEILING 0.8912509f

/* ---- answers */

enum goqhari_answer {
    /* Done. */
    GOQHARI_OK = 0,
    /* A lent store is shorter than 49,152 f64 or 4,096 u64, or there are fewer than 87 numbers or 19 words for the packed strip (all calls). */
    GOQHARI_STORE_SHORT = 1,
    /* A setup number is NaN or outside its range, or a flag is set that means nothing (open). */
    GOQHARI_BAD_SETUP = 2,
    /* A list is too long, falls, has positions and values unequal in number, a value outside 0 to 1 or NaN, or a position above 2^32 (open). */
    GOQHARI_BAD_LIST = 3,
    /*
     * The strip is malformed: position or a ramp's start or length above 2^32, a cursor beyond its list, more than 883 queued needs, a need
     * or the released gain outside 0 to 1 or NaN, a step above 2^40, a gain count that is not the total of its 221 steps, or kept setup and
     * lists that 2 or 3 would decline; or it cannot be read: a tag or flag among the words is above 1, or a number is no f32 where one
     * belongs (run, latch, rest). Nothing else is looked at: a strip that was altered may pass, and plays what its numbers say.
     */
    GOQHARI_BAD_STRIP = 4,
    /* The frame output isn't exactly 2 f32 a sample, or the count output 1 u64 a sample (run). */
    GOQHARI_BAD_OUTPUT = 5,
    /* Position plus samples exceeds 2^32 (run). */
    GOQHARI_PAST_END = 6,
    /* A sample is not finite or its size exceeds 1,024 (run). */
    GOQHARI_BAD_SAMPLE = 7,
    /* A control is NaN or outside 0 to 1, or a ramp length exceeds 2^32 (latch). */
    GOQHARI_BAD_CONTROL = 8
};

/* Flags of goqhari_open: a graded tone, a pad, darkened by rain, ducked by the kicks. Any other bit is refused with 2. */
enum goqhari_flag {
    GOQHARI_GRADED = 1,
    GOQHARI_PAD = 2,
    GOQHARI_DARKENED = 4,
    GOQHARI_DUCKED = 8
};

/* ---- the calls */

/*
 * Opens a strip at position 0.
 * singles: corner (or night corner), day corner, night drive, day drive, swell rate, swell depth, daylight, rain.
 * doubles: drive of a fixed tone, gain in, gain out, send. Numbers that the flags leave out are not looked at.
 * positions and values: the sweep's points, as many of the one as of the other. Points on one position count as one with the
 * lowest of their values, on the way to it and from it on. kicks: the positions of the kicks.
 * The lists are copied into the stores. What the four lists of the strip held before does not matter.
 */
uint64_t goqhari_open(const float singles[8], const double doubles[4], uint64_t flags,
                      const uint64_t *positions, uint64_t positions_len,
                      const double *values, uint64_t values_len,
                      const uint64_t *kicks, uint64_t kicks_len,
                      double *numbers, uint64_t numbers_len, uint64_t *words, uint64_t words_len,
                      double *store, uint64_t store_len, uint64_t *counts, uint64_t counts_len);

/*
 * Takes samples_len samples through the strip. frames gets two floats a sample (left, right), gains one count a sample, and their
 * lengths are exactly that. drums: 0, or anything else where the kicks reached in this run are heard and duck the lane.
 * The outputs do not depend on how samples are divided into runs.
 */
uint64_t goqhari_run(double *numbers, uint64_t numbers_len, uint64_t *words, uint64_t words_len,
                     const double *samples, uint64_t samples_len, uint64_t drums,
                     float *frames, uint64_t frames_len, uint64_t *gains, uint64_t gains_len,
                     double *store, uint64_t store_len, uint64_t *counts, uint64_t counts_len);

/*
 * Moves daylight and rain, from the position reached, to the given values over the given numbers of samples. A value that is already
 * the target changes nothing.
 */
uint64_t goqhari_latch(double *numbers, uint64_t numbers_len, uint64_t *words, uint64_t words_len,
                       float daylight, uint64_t grading, float rain, uint64_t darkening,
                       const double *store, uint64_t store_len, const uint64_t *counts, uint64_t counts_len);

/*
 * Sets rests[0] to 1 where every filter and line of the lane and the plate holds only zeros, so that silence in gives silence out,
 * and to 0 where not. Changes nothing else.
 */
uint64_t goqhari_rest(const double *numbers, uint64_t numbers_len, const uint64_t *words, uint64_t words_len,
                      uint64_t rests[1],
                      const double *store, uint64_t store_len, const uint64_t *counts, uint64_t counts_len);

/* ---- a setup by names, and a strip of exact lists */

/* What a maker sets. Ranges, ends allowed, are beside each. */
struct goqhari_setup {
    int graded;         /* 0: a fixed tone, of corner and drive; else graded by daylight from night to day */
    float corner;       /* fixed: 20 to 20,000 Hz */
    double drive;       /* fixed: 0.1 to 8 */
    float night_corner; /* graded: 20 to 20,000 Hz */
    float day_corner;   /* graded: 20 to 20,000 Hz */
    float night_drive;  /* graded: 0.1 to 8 */
    float day_drive;    /* graded: 0.1 to 8 */
    int pad;            /* 0: no pad; else one that swells */
    float swell_rate;   /* pad: 0 to 20 Hz */
    float swell_depth;  /* pad: 0 to 1 */
    int darkened;       /* 0, or else the tilt follows the rain */
    int ducked;         /* 0, or else the kicks duck the lane */
    double gain_in;     /* 0 to 16 */
    double gain_out;    /* 0 to 16 */
    double send;        /* to the plate: 0 to 1 */
    float daylight;     /* at the start: 0 to 1 */
    float rain;         /* at the start: 0 to 1 */
};

/*
 * A setup to begin with: the keys' lane of the Rust that the part is ported from, under its default weather: graded, ducked and darkened
 * by rain, with its drive of 1.6 and its send of -0.3 dB, by day and dry. Its corners are in no published file; 2,000 Hz by night is two
 * octaves below day's 8,000 Hz, at which the tape's own rolloff at 6,500 Hz has the say.
 */
#define GOQHARI_SETUP_DEFAULT \
    {1, 0.0f, 0.0, 2000.0f, 8000.0f, 1.6f, 1.6f, 0, 0.0f, 0.0f, 1, 1, 1.0, 1.0, 0.966, 1.0f, 0.0f}

/* The memory of a strip, some 425 KiB: for a static, the heap or a pool rather than a small stack. */
struct goqhari_strip {
    double numbers[GOQHARI_NUMBERS];
    uint64_t words[GOQHARI_WORDS];
    double store[GOQHARI_STORE_NUMBERS];
    uint64_t counts[GOQHARI_STORE_COUNTS];
};

/* The flags that a setup says. */
static inline uint64_t goqhari_setup_flags(const struct goqhari_setup *setup)
{
    return (setup->graded ? (uint64_t)GOQHARI_GRADED : 0) | (setup->pad ? (uint64_t)GOQHARI_PAD : 0) |
           (setup->darkened ? (uint64_t)GOQHARI_DARKENED : 0) | (setup->ducked ? (uint64_t)GOQHARI_DUCKED : 0);
}

/* The eight floats that goqhari_open takes. */
static inline void goqhari_setup_singles(const struct goqhari_setup *setup, float singles[8])
{
    singles[0] = setup->graded ? setup->night_corner : setup->corner;
    singles[1] = setup->day_corner;
    singles[2] = setup->night_drive;
    singles[3] = setup->day_drive;
    singles[4] = setup->swell_rate;
    singles[5] = setup->swell_depth;
    singles[6] = setup->daylight;
    singles[7] = setup->rain;
}

/* The four doubles that goqhari_open takes. */
static inline void goqhari_setup_doubles(const struct goqhari_setup *setup, double doubles[4])
{
    doubles[0] = setup->drive;
    doubles[1] = setup->gain_in;
    doubles[2] = setup->gain_out;
    doubles[3] = setup->send;
}

/* goqhari_open of a setup by names; as many positions as values. Here an empty list's pointer may be null. */
static inline uint64_t goqhari_strip_open(struct goqhari_strip *strip, const struct goqhari_setup *setup,
                                          const uint64_t *positions, const double *values, uint64_t points,
                                          const uint64_t *kicks, uint64_t kicks_len)
{
    const uint64_t no_position = 0;
    const double no_value = 0.0;
    float singles[8];
    double doubles[4];
    goqhari_setup_singles(setup, singles);
    goqhari_setup_doubles(setup, doubles);
    return goqhari_open(singles, doubles, goqhari_setup_flags(setup),
                        points ? positions : &no_position, points, points ? values : &no_value, points,
                        kicks_len ? kicks : &no_position, kicks_len,
                        strip->numbers, GOQHARI_NUMBERS, strip->words, GOQHARI_WORDS,
                        strip->store, GOQHARI_STORE_NUMBERS, strip->counts, GOQHARI_STORE_COUNTS);
}

/* goqhari_run of so many samples; frames has room for two floats a sample, gains for one count. */
static inline uint64_t goqhari_strip_run(struct goqhari_strip *strip, const double *samples, uint64_t samples_len, int drums,
                                         float *frames, uint64_t *gains)
{
    return goqhari_run(strip->numbers, GOQHARI_NUMBERS, strip->words, GOQHARI_WORDS, samples, samples_len, drums ? 1 : 0,
                       frames, 2 * samples_len, gains, samples_len,
                       strip->store, GOQHARI_STORE_NUMBERS, strip->counts, GOQHARI_STORE_COUNTS);
}

static inline uint64_t goqhari_strip_latch(struct goqhari_strip *strip, float daylight, uint64_t grading, float rain, uint64_t darkening)
{
    return goqhari_latch(strip->numbers, GOQHARI_NUMBERS, strip->words, GOQHARI_WORDS, daylight, grading, rain, darkening,
                         strip->store, GOQHARI_STORE_NUMBERS, strip->counts, GOQHARI_STORE_COUNTS);
}

static inline uint64_t goqhari_strip_rest(const struct goqhari_strip *strip, uint64_t *rests)
{
    return goqhari_rest(strip->numbers, GOQHARI_NUMBERS, strip->words, GOQHARI_WORDS, rests,
                        strip->store, GOQHARI_STORE_NUMBERS, strip->counts, GOQHARI_STORE_COUNTS);
}

#ifdef __cplusplus
}
#endif

#endif
