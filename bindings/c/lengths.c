/* Compiled, not run: each length that the header takes is a uint64_t, also where a size_t has 32 bits. */
#include "goqhari.h"

uint64_t (*const open_takes)(const float *, const double *, uint64_t, const uint64_t *, uint64_t, const double *, uint64_t, const uint64_t *,
                             uint64_t, double *, uint64_t, uint64_t *, uint64_t, double *, uint64_t, uint64_t *, uint64_t) = goqhari_open;
uint64_t (*const run_takes)(double *, uint64_t, uint64_t *, uint64_t, const double *, uint64_t, uint64_t, float *, uint64_t, uint64_t *,
                            uint64_t, double *, uint64_t, uint64_t *, uint64_t) = goqhari_run;
uint64_t (*const latch_takes)(double *, uint64_t, uint64_t *, uint64_t, float, uint64_t, float, uint64_t, const double *, uint64_t,
                              const uint64_t *, uint64_t) = goqhari_latch;
uint64_t (*const rest_takes)(const double *, uint64_t, const uint64_t *, uint64_t, uint64_t *, const double *, uint64_t, const uint64_t *,
                             uint64_t) = goqhari_rest;
uint64_t (*const strip_open_takes)(struct goqhari_strip *, const struct goqhari_setup *, const uint64_t *, const double *, uint64_t,
                                   const uint64_t *, uint64_t) = goqhari_strip_open;
uint64_t (*const strip_run_takes)(struct goqhari_strip *, const double *, uint64_t, int, float *, uint64_t *) = goqhari_strip_run;
uint64_t (*const strip_latch_takes)(struct goqhari_strip *, float, uint64_t, float, uint64_t) = goqhari_strip_latch;
