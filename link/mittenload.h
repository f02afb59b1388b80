/* mittenload: proved filters of a torsional-vibration recorder, for C11 and C++.
 *
 * A state is yours: plain data, no allocation, no hidden memory, nothing to free. Copy it, store it, have as many as you like.
 * Every call answers the number of its refusal, or 0 where it was done (ml_cic_decimate: also 1 and 2, see there); one that nothing refuses answers its
 * value. A refused call changes nothing. Every call tests all of the state's numbers, so a damaged state is refused and never read out of bounds.
 *
 *   10 order above 8 · 11 comb delay 0 or above 8 · 12 rate above 65535 · 13 countdown above 65535
 *   14 gain above 2^63 - 1 · 15 unsettled count above order * delay · 16 more than 2^64 - 1 inputs · 17 bits or width of a fit · 20 output slice too short
 *   21 a sample where none is due · 22 none where one is due · 23 input slice too short
 *   30 modulator order above 8 · 31 slices of a block differ in length · 32 a retained carry out of range · 40 fraction bits out of range
 *   41 lower limit above upper, or a NaN · 42 forward gain zero · 50 more than 8 sections · 51 a nibble beyond the last section
 *   52 a pole out of range · 53 a retired adapter · 60 to 62 loop shifts · 65 shift
 *   80 a store's first line · 81 a bad record · 82 names out of order · 83 more than 64 records · 84 form 1 has no such record · 90, 91 WAV
 *
 * PROVED, of the functions mittenload_* on x86-64: each does what specs/ of crates/capi_* and crates/cic_calls says, on every state and slice.
 * NOT PROVED: the ml_* functions below, which only hand a struct over field by field (ml_cic_decimate reads an
 * output off the state as the promise says, ml_cic_of makes a rate of R, ml_wdf_of copies coefficients); and
 * what is assumed of you, which nothing tests:
 *   - every pointer is valid for what it points to (slices: for their length), aligned, and not NULL, also where a length is 0; a bool is 0 or 1;
 *   - nothing that is lent overlaps anything else that is lent in the same call: filtering in place is not covered;
 *   - one call at a time on a state. Calls share nothing else, so different states may run on different cores and in interrupts.
 */
#ifndef MITTENLOAD_H
#define MITTENLOAD_H

#include <stdbool.h>
#include <stdint.h>

#ifdef __cplusplus
extern "C" {
#endif

/* The decimator and interpolator, on int32_t (ml_cic) and on int64_t (ml_cic64, ml_cic64_new, and so on). N = order, M = delay,
 * R = rate + 1. One set of fields serves either way; use a state one way alone.
 *
 *   ml_cic_new(s, order, delay, rate)   Zeros, settled; the first input gives an output. 10, 11, 12.
 *   ml_cic_resume(s)                    The fields of *s are taken as you have filled them in; the next N * M outputs are unsettled. 10 to 13.
 *   ml_cic_set_rate(s, rate)            Another rate, or the same after a gap in the samples: the next N * M outputs are unsettled.
 *   ml_cic_clear(s)                     Zeros at the same order, delay and rate.
 *   ml_cic_decimate(s, x, y)            One input. 1: an output that may be believed, in *y; 2: one that may not; 0: none, *y stays. 16.
 *   ml_cic_decimate_block(s, in, n, out, m, w)
 *                                       n inputs; the outputs go to the front of out, the rest of out stays; *w tells how many, and of the first
 *                                       what ml_output tells (0 and 0 where there is none). Output i is told w->told - i, not below 0, and its
 *                                       number is w->number + i * R. 16; 20: m is below n <= countdown ? 0 : 1 + (n - 1 - countdown) / R.
 *   ml_cic_interpolate_sample(s, x, y)  One output, with the sample x, which is due exactly where s->countdown is 0. 21.
 *   ml_cic_interpolate_held(s, y)       One output, without a sample. 22.
 *   ml_cic_interpolate_block(s, in, n, out, m, read)
 *                                       All m elements of out are written; *read tells how many inputs were due. 23: n is below that.
 *   ml_cic_settle_interpolate(s, x)     As if x had been fed for ever.
 *   ml_cic_get_interpolate(s, y)        The interpolator's last output. The decimator's is s->hold.
 *   ml_cic_settled(out, m, w, first, count)
 *                                       The settled part of what a block wrote to out, which has m elements: it begins at out[*first]; *count
 *                                       tells how many. 20: w->count is above m.
 */
#define ML_CIC(NAME, WORD)                                                                                                                  \
    typedef struct ml_##NAME {                                                                                                              \
        uint64_t order, delay;    /* N and M */                                                                                             \
        uint32_t rate, countdown; /* R - 1; inputs before the one that gives the next output */                                             \
        uint64_t unsettled;       /* outputs from now on that are not to be believed */                                                     \
        uint64_t inputs;          /* inputs taken */                                                                                        \
        WORD hold;                /* the decimator's last output, the interpolator's held value */                                          \
        WORD integrators[8];                                                                                                                \
        WORD combs[64];           /* line j is the first M of the eight cells from 8 j on, the oldest first */                              \
    } ml_##NAME;                                                                                                                            \
                                                                                                                                            \
    /* An output; the unsettled count that it found (0: settled; 3: this one and the next two are not); its input's number, from 1. */      \
    typedef struct ml_##NAME##_output {                                                                                                     \
        WORD value;                                                                                                                         \
        uint64_t told, number;                                                                                                              \
    } ml_##NAME##_output;                                                                                                                   \
                                                                                                                                            \
    uint32_t mittenload_##NAME##_new(ML_LENT(WORD), uint64_t order, uint64_t delay, uint32_t rate);                                         \
    uint32_t mittenload_##NAME##_resume(ML_LENT(WORD));                                                                                     \
    uint32_t mittenload_##NAME##_set_rate(ML_LENT(WORD), uint32_t rate);                                                                    \
    uint32_t mittenload_##NAME##_clear(ML_LENT(WORD));                                                                                      \
    uint32_t mittenload_##NAME##_decimate(uint64_t order, uint64_t delay, uint32_t rate, uint32_t *countdown, uint64_t *unsettled,          \
                                          uint64_t *inputs, WORD *hold, WORD integrators[8], WORD combs[64], WORD x);                       \
    uint32_t mittenload_##NAME##_decimate_block(ML_LENT(WORD), const WORD *in, uint64_t n, WORD *out, uint64_t m, uint64_t *count,          \
                                                uint64_t *told, uint64_t *number);                                                          \
    uint32_t mittenload_##NAME##_interpolate_sample(ML_LENT(WORD), WORD x, WORD *value);                                                    \
    uint32_t mittenload_##NAME##_interpolate_held(ML_LENT(WORD), WORD *value);                                                              \
    uint32_t mittenload_##NAME##_interpolate_block(ML_LENT(WORD), const WORD *in, uint64_t n, WORD *out, uint64_t m, uint64_t *count);      \
    uint32_t mittenload_##NAME##_settle_interpolate(ML_LENT(WORD), WORD x);                                                                 \
    uint32_t mittenload_##NAME##_get_interpolate(const uint64_t *order, const uint64_t *delay, const uint32_t *rate,                        \
                                                 const uint32_t *countdown, const uint64_t *unsettled, const uint64_t *inputs,              \
                                                 const WORD *hold, const WORD integrators[8], const WORD combs[64], WORD *value);           \
    uint32_t mittenload_##NAME##_settled(const WORD *out, uint64_t m, uint64_t written, uint64_t told, uint64_t *first, uint64_t *count);   \
                                                                                                                                            \
    static inline uint32_t ml_##NAME##_new(ml_##NAME *s, uint64_t order, uint64_t delay, uint32_t rate)                                     \
    {                                                                                                                                       \
        return mittenload_##NAME##_new(ML_PARTS(s), order, delay, rate);                                                                    \
    }                                                                                                                                       \
    static inline uint32_t ml_##NAME##_resume(ml_##NAME *s) { return mittenload_##NAME##_resume(ML_PARTS(s)); }                             \
    static inline uint32_t ml_##NAME##_set_rate(ml_##NAME *s, uint32_t rate) { return mittenload_##NAME##_set_rate(ML_PARTS(s), rate); }    \
    static inline uint32_t ml_##NAME##_clear(ml_##NAME *s) { return mittenload_##NAME##_clear(ML_PARTS(s)); }                               \
    static inline uint32_t ml_##NAME##_decimate(ml_##NAME *s, WORD x, ml_##NAME##_output *y)                                                \
    {                                                                                                                                       \
        uint32_t answer = mittenload_##NAME##_decimate(s->order, s->delay, s->rate, &s->countdown, &s->unsettled, &s->inputs, &s->hold,     \
                                                       s->integrators, s->combs, x);                                                        \
        if (answer == 1 || answer == 2)                                                                                                     \
            y->value = s->hold, y->told = answer == 2 ? s->unsettled + 1 : 0, y->number = s->inputs;                                        \
        return answer;                                                                                                                      \
    }                                                                                                                                       \
    static inline uint32_t ml_##NAME##_decimate_block(ml_##NAME *s, const WORD *in, uint64_t n, WORD *out, uint64_t m, ml_written *w)       \
    {                                                                                                                                       \
        return mittenload_##NAME##_decimate_block(ML_PARTS(s), in, n, out, m, &w->count, &w->told, &w->number);                             \
    }                                                                                                                                       \
    static inline uint32_t ml_##NAME##_interpolate_sample(ml_##NAME *s, WORD x, WORD *y)                                                    \
    {                                                                                                                                       \
        return mittenload_##NAME##_interpolate_sample(ML_PARTS(s), x, y);                                                                   \
    }                                                                                                                                       \
    static inline uint32_t ml_##NAME##_interpolate_held(ml_##NAME *s, WORD *y)                                                              \
    {                                                                                                                                       \
        return mittenload_##NAME##_interpolate_held(ML_PARTS(s), y);                                                                        \
    }                                                                                                                                       \
    static inline uint32_t ml_##NAME##_interpolate_block(ml_##NAME *s, const WORD *in, uint64_t n, WORD *out, uint64_t m, uint64_t *read)   \
    {                                                                                                                                       \
        return mittenload_##NAME##_interpolate_block(ML_PARTS(s), in, n, out, m, read);                                                     \
    }                                                                                                                                       \
    static inline uint32_t ml_##NAME##_settle_interpolate(ml_##NAME *s, WORD x)                                                             \
    {                                                                                                                                       \
        return mittenload_##NAME##_settle_interpolate(ML_PARTS(s), x);                                                                      \
    }                                                                                                                                       \
    static inline uint32_t ml_##NAME##_get_interpolate(const ml_##NAME *s, WORD *y)                                                         \
    {                                                                                                                                       \
        return mittenload_##NAME##_get_interpolate(ML_PARTS(s), y);                                                                         \
    }                                                                                                                                       \
    static inline uint32_t ml_##NAME##_settled(const WORD *out, uint64_t m, const ml_written *w, uint64_t *first, uint64_t *count)          \
    {                                                                                                                                       \
        return mittenload_##NAME##_settled(out, m, w->count, w->told, first, count);                                                        \
    }

/* A state's fields, as the mittenload_* functions take them. */
#define ML_LENT(WORD)                                                                                                                       \
    uint64_t *, uint64_t *, uint32_t *, uint32_t *, uint64_t *, uint64_t *, WORD *, WORD[8], WORD[64]
#define ML_PARTS(s)                                                                                                                         \
    &(s)->order, &(s)->delay, &(s)->rate, &(s)->countdown, &(s)->unsettled, &(s)->inputs, &(s)->hold, (s)->integrators, (s)->combs

/* What a decimator's block wrote. */
typedef struct ml_written {
    uint64_t count, told, number;
} ml_written;

ML_CIC(cic, int32_t)
ML_CIC(cic64, int64_t)

/* Questions about a state, either word: (s) is an ml_cic or an ml_cic64. A refused one leaves *value.
 *
 *   ml_refusal(s)                       The number of the first test that the state fails, or 0.
 *   ml_gain(s, value)                   (R * M)^N. 14: above 2^63 - 1.
 *   ml_gain_log2(s, value)              The right shift that undoes the gain.
 *   ml_response_length(s, value)        The steps at the high rate until an input's answer is over.
 *   ml_low_rate_length(s, n, value)     The outputs of n inputs, or the inputs of n interpolated outputs.
 *   ml_fit(s, width, b, yes)            Whether inputs of b signed bits make no output of 32 or 64 bits wrap: 1 or 0. 17.
 */
#define ML_NUMBERS uint64_t order, uint64_t delay, uint32_t rate, uint32_t countdown, uint64_t unsettled
uint32_t mittenload_refusal(ML_NUMBERS);
uint32_t mittenload_gain(ML_NUMBERS, uint64_t *value);
uint32_t mittenload_gain_log2(ML_NUMBERS, uint64_t *value);
uint32_t mittenload_response_length(ML_NUMBERS, uint64_t *value);
uint32_t mittenload_low_rate_length(ML_NUMBERS, uint64_t n, uint64_t *value);
uint32_t mittenload_fit(ML_NUMBERS, uint32_t width, uint32_t b, uint32_t *yes);
#define ML_OF(s) (s)->order, (s)->delay, (s)->rate, (s)->countdown, (s)->unsettled
#define ml_refusal(s) mittenload_refusal(ML_OF(s))
#define ml_gain(s, value) mittenload_gain(ML_OF(s), value)
#define ml_gain_log2(s, value) mittenload_gain_log2(ML_OF(s), value)
#define ml_response_length(s, value) mittenload_response_length(ML_OF(s), value)
#define ml_low_rate_length(s, n, value) mittenload_low_rate_length(ML_OF(s), n, value)
#define ml_fit(s, width, b, yes) mittenload_fit(ML_OF(s), width, b, yes)

/* The other filters: blocks, one output for each of n inputs; a block of one is a step. m is the length of out: 31 where it is not n, and that
 * comes before the filter's own number. A state of zeros is a new one. Coefficients are const, states change.
 *
 *   ml_unwrap(s, in, n, out, m)         Differences dx of a phase word, summed in s->y (64 bits).
 *   ml_clamp_wrap(s, in, n, out, m)     The phase, or the least or the greatest word while it is wrapped.
 *   ml_wraps(s), ml_phase(s)            Turns and phase of an unwrapper, which nothing refuses: they answer the value.
 *   ml_sub(y, x, wrap)                  y - x modulo 2^32, the value; *wrap is 1 where the wrap added 2^32, 2 where it took it away, else 0.
 *   ml_scale(lo, hi, shift, y)          (hi * 2^32 + lo) / 2^shift, rounded down and clamped to int32_t. 65: shift outside 1..32.
 *   ml_dsm(s, in, n, out, m)            The modulator of s->order. 30, 31, 32.
 *   ml_dsm_new(s, order)                Zeros. 30.
 *   ml_dsm_output_range(s, least, greatest)   1 - 2^(K-1) and 2^(K-1), or 0 twice. 30, 32.
 *   ml_wdf(s, in, n, out, m)            The wave digital filter. 31, 50, 51.
 *   ml_wdf_new(s)                       Tests the sections and architecture that you have filled in and zeroes the cells. 50, 51, 53.
 *   ml_wdf_from_form1(s)                The same of settings of form 1, which may hold the retired adapters e and f. 50, 51.
 *   ml_wdf_current(sections, architecture)    The architecture with b and c in the places of e and f: the value.
 *   ml_wdf_quantize(nibble, g, bits)    The bits of a coefficient from a pole g. 52, 53.
 *   ml_df1, ml_df2t(c, s, in, n, out, m)              Biquads on doubles, direct form 1 and 2 transposed.
 *   ml_df1_clamp, ml_df2t_clamp(c, s, in, n, out, m)  With offset and limits. 41.
 *   ml_biquad_from_zpk(c, zeros, poles, gain)         Coefficients from two pairs of roots. ML_PROPORTIONAL(k), ML_IDENTITY and ML_HOLD are initialisers.
 *   ml_biquad_forward_gain(c)                         The value.
 *   ml_biquad_input_offset(c, value)                  The offset referred to the input. 42.
 *   ml_biquad_set_input_offset(c, i)                  Sets c->u so that it is i.
 *   ml_wide, ml_dither(c, s, in, n, out, m)           Biquads on words with F = c->f fraction bits. 40.
 *   ml_wide_clamp, ml_dither_clamp(c, s, in, n, out, m)   40, 41.
 *   ml_pll(c, s, in, n, out, m)         The phase-locked loop: its phases.
 *   ml_pll_predict(s)                   Its phase an update on, without an input: s->y, and the value.
 *   ml_pll_frequency(s)                 The value.
 *   ml_rpll_at(c, s, x, phase, frequency), ml_rpll_missing(c, s, phase, frequency)
 *                                       A step of the reciprocal loop, with the timestamp x and without. 60, 61, 62.
 *   ml_rpll(c, s, there, xs, phases, frequencies, n)
 *                                       n steps, step i with the timestamp xs[i] where there[i]. 60, 61, 62.
 */
typedef struct ml_unwrapper { int64_t y; } ml_unwrapper;
typedef struct ml_clamp { int32_t x0; uint32_t wrap; /* 0 none, 1 positive, else negative; a block leaves 0, 1 or 2 */ } ml_clamp;
typedef struct ml_modulator { uint64_t order; uint32_t accumulators[8]; int16_t retained[8]; } ml_modulator;
typedef struct ml_lattice {
    uint64_t sections;     /* up to 8 */
    uint32_t architecture; /* a nibble for each, the first one lowest */
    int32_t a[8], z[8];    /* coefficients, in units of 2^-32, and cells */
} ml_lattice;
typedef struct ml_biquad { double b0, b1, b2, a1, a2; } ml_biquad;
typedef struct ml_biquad_clamp { double b0, b1, b2, a1, a2, u, min, max; } ml_biquad_clamp;
#define ML_PROPORTIONAL(k) {(k), 0, 0, 0, 0}
#define ML_IDENTITY ML_PROPORTIONAL(1)
#define ML_HOLD {0, 0, 0, 1, 0}
typedef struct ml_pair { uint32_t complex; /* 0: the real roots x and y; else x + jy and x - jy */ double x, y; } ml_pair;
typedef struct ml_form1 { double x1, x2, y1, y2; } ml_form1;
typedef struct ml_form2 { double s1, s2; } ml_form2;
typedef struct ml_word { int32_t b0, b1, b2, a1, a2; uint32_t f; } ml_word;
typedef struct ml_word_clamp { int32_t b0, b1, b2, a1, a2; uint32_t f; int32_t u, min, max; } ml_word_clamp;
typedef struct ml_form1_wide { int32_t x1, x2; int64_t y1, y2; } ml_form1_wide;
typedef struct ml_form1_dither { int32_t x1, x2, y1, y2; uint32_t e; } ml_form1_dither;
typedef struct ml_loop { int32_t b0, b1, a1; } ml_loop;
typedef struct ml_loop_state { int32_t x0; uint32_t wrap; int32_t z0, y0; int64_t f0, f; int32_t y; } ml_loop_state;
typedef struct ml_reciprocal { uint8_t dt2, shift_frequency, shift_phase; } ml_reciprocal;
typedef struct ml_reciprocal_state { int32_t x; uint32_t ff, f; int32_t y; } ml_reciprocal_state;

#define ML_BLOCK(X, Y) const X *in, uint64_t n, Y *out, uint64_t m
#define ML_D const double *
#define ML_W const int32_t *
uint32_t mittenload_unwrapper(int64_t *y, ML_BLOCK(int32_t, int32_t));
uint32_t mittenload_clamp_wrap(int32_t *x0, uint32_t *wrap, ML_BLOCK(int32_t, int32_t));
uint32_t mittenload_saturating_scale(int32_t lo, int32_t hi, uint32_t shift, int32_t *value);
uint32_t mittenload_dsm(uint64_t *order, uint32_t accumulators[8], int16_t retained[8], ML_BLOCK(uint32_t, int16_t));
uint32_t mittenload_wdf(uint64_t *sections, uint32_t *architecture, int32_t a[8], int32_t z[8], ML_BLOCK(int32_t, int32_t));
uint32_t mittenload_df1(ML_D, ML_D, ML_D, ML_D, ML_D, double *, double *, double *, double *, ML_BLOCK(double, double));
uint32_t mittenload_df1_clamp(ML_D, ML_D, ML_D, ML_D, ML_D, ML_D, ML_D, ML_D, double *, double *, double *, double *, ML_BLOCK(double, double));
uint32_t mittenload_df2t(ML_D, ML_D, ML_D, ML_D, ML_D, double *, double *, ML_BLOCK(double, double));
uint32_t mittenload_df2t_clamp(ML_D, ML_D, ML_D, ML_D, ML_D, ML_D, ML_D, ML_D, double *, double *, ML_BLOCK(double, double));
uint32_t mittenload_wide(ML_W, ML_W, ML_W, ML_W, ML_W, const uint32_t *, int32_t *, int32_t *, int64_t *, int64_t *, ML_BLOCK(int32_t, int32_t));
uint32_t mittenload_wide_clamp(ML_W, ML_W, ML_W, ML_W, ML_W, const uint32_t *, ML_W, ML_W, ML_W, int32_t *, int32_t *, int64_t *, int64_t *,
                               ML_BLOCK(int32_t, int32_t));
uint32_t mittenload_dither(ML_W, ML_W, ML_W, ML_W, ML_W, const uint32_t *, int32_t *, int32_t *, int32_t *, int32_t *, uint32_t *,
                           ML_BLOCK(int32_t, int32_t));
uint32_t mittenload_dither_clamp(ML_W, ML_W, ML_W, ML_W, ML_W, const uint32_t *, ML_W, ML_W, ML_W, int32_t *, int32_t *, int32_t *, int32_t *,
                                 uint32_t *, ML_BLOCK(int32_t, int32_t));
uint32_t mittenload_pll(ML_W, ML_W, ML_W, int32_t *x0, uint32_t *wrap, int32_t *z0, int32_t *y0, int64_t *f0, int64_t *f, int32_t *y,
                        ML_BLOCK(int32_t, int32_t));
uint32_t mittenload_rpll_at(const uint8_t *, const uint8_t *, const uint8_t *, int32_t *x, uint32_t *ff, uint32_t *f, int32_t *y, int32_t at,
                            int32_t *phase, int32_t *frequency);
uint32_t mittenload_rpll_missing(const uint8_t *, const uint8_t *, const uint8_t *, int32_t *x, uint32_t *ff, uint32_t *f, int32_t *y,
                                 int32_t *phase, int32_t *frequency);
uint32_t mittenload_rpll_block(const uint8_t *, const uint8_t *, const uint8_t *, int32_t *x, uint32_t *ff, uint32_t *f, int32_t *y,
                               const bool *there, uint64_t n, const int32_t *xs, uint64_t m, int32_t *phases, uint64_t k, int32_t *frequencies,
                               uint64_t l);
int32_t mittenload_unwrapper_wraps(int64_t y);
int32_t mittenload_unwrapper_phase(int64_t y);
int32_t mittenload_overflowing_sub(int32_t y, int32_t x, uint32_t *wrap);
int32_t mittenload_pll_predict(const int32_t *x0, const uint32_t *wrap, const int32_t *z0, const int32_t *y0, const int64_t *f0, const int64_t *f,
                               int32_t *y);
int32_t mittenload_pll_frequency(const int32_t *x0, const uint32_t *wrap, const int32_t *z0, const int32_t *y0, const int64_t *f0, const int64_t *f,
                                 const int32_t *y);
uint32_t mittenload_dsm_new(uint64_t *order, uint32_t accumulators[8], int16_t retained[8], uint64_t n);
uint32_t mittenload_dsm_output_range(const uint64_t *order, const uint32_t accumulators[8], const int16_t retained[8], int16_t *least, int16_t *greatest);
uint32_t mittenload_wdf_new(uint64_t *sections, uint32_t *architecture, int32_t a[8], int32_t z[8]);
uint32_t mittenload_wdf_from_form1(uint64_t *sections, uint32_t *architecture, int32_t a[8], int32_t z[8]);
uint32_t mittenload_wdf_current_architecture(uint64_t sections, uint32_t architecture);
uint32_t mittenload_wdf_quantize(uint8_t nibble, double g, int32_t *bits);
void mittenload_biquad_from_zpk(uint32_t zeros, double zx, double zy, uint32_t poles, double px, double py, double gain, double *b0, double *b1, double *b2,
                                double *a1, double *a2);
double mittenload_biquad_forward_gain(double b0, double b1, double b2, double a1, double a2);
uint32_t mittenload_biquad_input_offset(ML_D, ML_D, ML_D, ML_D, ML_D, ML_D, ML_D, ML_D, double *value);
void mittenload_biquad_set_input_offset(ML_D, ML_D, ML_D, ML_D, ML_D, double *u, ML_D, ML_D, double i);

#define ML_C5(c) &(c)->b0, &(c)->b1, &(c)->b2, &(c)->a1, &(c)->a2
#define ML_C8(c) ML_C5(c), &(c)->u, &(c)->min, &(c)->max
#define ML_C9(c) ML_C5(c), &(c)->f, &(c)->u, &(c)->min, &(c)->max
#define ML_XY(s) &(s)->x1, &(s)->x2, &(s)->y1, &(s)->y2
static inline uint32_t ml_unwrap(ml_unwrapper *s, ML_BLOCK(int32_t, int32_t)) { return mittenload_unwrapper(&s->y, in, n, out, m); }
static inline uint32_t ml_clamp_wrap(ml_clamp *s, ML_BLOCK(int32_t, int32_t)) { return mittenload_clamp_wrap(&s->x0, &s->wrap, in, n, out, m); }
static inline uint32_t ml_scale(int32_t lo, int32_t hi, uint32_t shift, int32_t *y) { return mittenload_saturating_scale(lo, hi, shift, y); }
static inline uint32_t ml_dsm(ml_modulator *s, ML_BLOCK(uint32_t, int16_t))
{
    return mittenload_dsm(&s->order, s->accumulators, s->retained, in, n, out, m);
}
static inline uint32_t ml_wdf(ml_lattice *s, ML_BLOCK(int32_t, int32_t))
{
    return mittenload_wdf(&s->sections, &s->architecture, s->a, s->z, in, n, out, m);
}
static inline uint32_t ml_df1(const ml_biquad *c, ml_form1 *s, ML_BLOCK(double, double))
{
    return mittenload_df1(ML_C5(c), ML_XY(s), in, n, out, m);
}
static inline uint32_t ml_df1_clamp(const ml_biquad_clamp *c, ml_form1 *s, ML_BLOCK(double, double))
{
    return mittenload_df1_clamp(ML_C8(c), ML_XY(s), in, n, out, m);
}
static inline uint32_t ml_df2t(const ml_biquad *c, ml_form2 *s, ML_BLOCK(double, double))
{
    return mittenload_df2t(ML_C5(c), &s->s1, &s->s2, in, n, out, m);
}
static inline uint32_t ml_df2t_clamp(const ml_biquad_clamp *c, ml_form2 *s, ML_BLOCK(double, double))
{
    return mittenload_df2t_clamp(ML_C8(c), &s->s1, &s->s2, in, n, out, m);
}
static inline uint32_t ml_wide(const ml_word *c, ml_form1_wide *s, ML_BLOCK(int32_t, int32_t))
{
    return mittenload_wide(ML_C5(c), &c->f, ML_XY(s), in, n, out, m);
}
static inline uint32_t ml_wide_clamp(const ml_word_clamp *c, ml_form1_wide *s, ML_BLOCK(int32_t, int32_t))
{
    return mittenload_wide_clamp(ML_C9(c), ML_XY(s), in, n, out, m);
}
static inline uint32_t ml_dither(const ml_word *c, ml_form1_dither *s, ML_BLOCK(int32_t, int32_t))
{
    return mittenload_dither(ML_C5(c), &c->f, ML_XY(s), &s->e, in, n, out, m);
}
static inline uint32_t ml_dither_clamp(const ml_word_clamp *c, ml_form1_dither *s, ML_BLOCK(int32_t, int32_t))
{
    return mittenload_dither_clamp(ML_C9(c), ML_XY(s), &s->e, in, n, out, m);
}
static inline uint32_t ml_pll(const ml_loop *c, ml_loop_state *s, ML_BLOCK(int32_t, int32_t))
{
    return mittenload_pll(&c->b0, &c->b1, &c->a1, &s->x0, &s->wrap, &s->z0, &s->y0, &s->f0, &s->f, &s->y, in, n, out, m);
}
#define ML_RECIPROCAL(c, s) &(c)->dt2, &(c)->shift_frequency, &(c)->shift_phase, &(s)->x, &(s)->ff, &(s)->f, &(s)->y
static inline uint32_t ml_rpll_at(const ml_reciprocal *c, ml_reciprocal_state *s, int32_t x, int32_t *phase, int32_t *frequency)
{
    return mittenload_rpll_at(ML_RECIPROCAL(c, s), x, phase, frequency);
}
static inline uint32_t ml_rpll_missing(const ml_reciprocal *c, ml_reciprocal_state *s, int32_t *phase, int32_t *frequency)
{
    return mittenload_rpll_missing(ML_RECIPROCAL(c, s), phase, frequency);
}
static inline uint32_t ml_rpll(const ml_reciprocal *c, ml_reciprocal_state *s, const bool *there, const int32_t *xs, int32_t *phases, int32_t *frequencies,
                               uint64_t n)
{
    return mittenload_rpll_block(ML_RECIPROCAL(c, s), there, n, xs, n, phases, n, frequencies, n);
}
static inline int32_t ml_wraps(const ml_unwrapper *s) { return mittenload_unwrapper_wraps(s->y); }
static inline int32_t ml_phase(const ml_unwrapper *s) { return mittenload_unwrapper_phase(s->y); }
static inline int32_t ml_sub(int32_t y, int32_t x, uint32_t *wrap) { return mittenload_overflowing_sub(y, x, wrap); }
#define ML_LOOP(s) &(s)->x0, &(s)->wrap, &(s)->z0, &(s)->y0, &(s)->f0, &(s)->f, &(s)->y
static inline int32_t ml_pll_predict(ml_loop_state *s) { return mittenload_pll_predict(ML_LOOP(s)); }
static inline int32_t ml_pll_frequency(const ml_loop_state *s) { return mittenload_pll_frequency(ML_LOOP(s)); }
static inline uint32_t ml_dsm_new(ml_modulator *s, uint64_t order) { return mittenload_dsm_new(&s->order, s->accumulators, s->retained, order); }
static inline uint32_t ml_dsm_output_range(const ml_modulator *s, int16_t *least, int16_t *greatest)
{
    return mittenload_dsm_output_range(&s->order, s->accumulators, s->retained, least, greatest);
}
static inline uint32_t ml_wdf_new(ml_lattice *s) { return mittenload_wdf_new(&s->sections, &s->architecture, s->a, s->z); }
static inline uint32_t ml_wdf_from_form1(ml_lattice *s) { return mittenload_wdf_from_form1(&s->sections, &s->architecture, s->a, s->z); }
static inline uint32_t ml_wdf_current(uint64_t sections, uint32_t architecture) { return mittenload_wdf_current_architecture(sections, architecture); }
static inline uint32_t ml_wdf_quantize(uint8_t nibble, double g, int32_t *bits) { return mittenload_wdf_quantize(nibble, g, bits); }
static inline void ml_biquad_from_zpk(ml_biquad *c, const ml_pair *zeros, const ml_pair *poles, double gain)
{
    mittenload_biquad_from_zpk(zeros->complex, zeros->x, zeros->y, poles->complex, poles->x, poles->y, gain, ML_C5(c));
}
static inline double ml_biquad_forward_gain(const ml_biquad *c) { return mittenload_biquad_forward_gain(c->b0, c->b1, c->b2, c->a1, c->a2); }
static inline uint32_t ml_biquad_input_offset(const ml_biquad_clamp *c, double *value) { return mittenload_biquad_input_offset(ML_C8(c), value); }
static inline void ml_biquad_set_input_offset(ml_biquad_clamp *c, double i) { mittenload_biquad_set_input_offset(ML_C8(c), i); }

/* Settings stores: a text of up to 64 records, each a filter's parameters under a name; form is 1 or 2. At 2 a decimator's `rate` is R itself, and
 * retired adapters are refused. A store is read and written whole at each call, with some 30 KB of stack: settings are for start-up.
 *
 *   ml_settings_form(text, n)                       1 or 2, by the first line; 1 where that is neither. The value.
 *   ml_settings_line(form, text, n)                 The first bad line, from 1, of a text that is refused; else 0. The value.
 *   ml_settings_count(form, text, n, count)         How many records. 80 to 83, then 10 to 12, 40, 41, 50, 51, 53.
 *   ml_settings_read(form, text, n, place, record)  The record at a place, from 0; where there is none its length is 0. The same.
 *   ml_settings_put(form, text, n, place, record, out, m, count)
 *                                                   The store with the record in place of the one there, or after the last where place is their
 *                                                   number: to the front of out, *count bytes. "set\t2\n" is an empty store. The same; 20.
 *   ml_settings_forth, ml_settings_back(text, n, out, m, count)   The store in form 2, and back in form 1. The same; 20; 84.
 * ml_cic_of and ml_wdf_of make a record's filter.
 */
typedef struct ml_setting {
    uint8_t name[16]; /* length lower-case letters */
    uint64_t length;
    uint32_t kind;               /* 0 decimator, 1 wave digital filter, else dithered biquad; what a kind has not is 0 */
    uint32_t order, delay, rate; /* 0 */
    uint64_t sections;           /* 1 */
    uint32_t architecture;       /* 1 */
    uint32_t f;                  /* 2: fraction bits */
    int32_t a[8];                /* 1: coefficients; 2: b0, b1, b2, a1, a2, offset, lower and upper limit */
} ml_setting;
uint32_t mittenload_settings_form(const uint8_t *text, uint64_t n);
uint64_t mittenload_settings_line(uint32_t form, const uint8_t *text, uint64_t n);
uint32_t mittenload_settings_count(uint32_t form, const uint8_t *text, uint64_t n, uint64_t *count);
uint32_t mittenload_settings_read(uint32_t form, const uint8_t *text, uint64_t n, uint64_t place, uint8_t name[16], uint64_t *length, uint32_t *kind,
                                  uint32_t *order, uint32_t *delay, uint32_t *rate, uint64_t *sections, uint32_t *architecture, uint32_t *f, int32_t a[8]);
uint32_t mittenload_settings_put(uint32_t form, const uint8_t *text, uint64_t n, uint64_t place, const uint8_t name[16], const uint64_t *length,
                                 const uint32_t *kind, const uint32_t *order, const uint32_t *delay, const uint32_t *rate, const uint64_t *sections,
                                 const uint32_t *architecture, const uint32_t *f, const int32_t a[8], uint8_t *out, uint64_t m, uint64_t *count);
uint32_t mittenload_settings_forth(const uint8_t *text, uint64_t n, uint8_t *out, uint64_t m, uint64_t *count);
uint32_t mittenload_settings_back(const uint8_t *text, uint64_t n, uint8_t *out, uint64_t m, uint64_t *count);
#define ML_RECORD(r)                                                                                                                        \
    (r)->name, &(r)->length, &(r)->kind, &(r)->order, &(r)->delay, &(r)->rate, &(r)->sections, &(r)->architecture, &(r)->f, (r)->a
static inline uint32_t ml_settings_form(const uint8_t *text, uint64_t n) { return mittenload_settings_form(text, n); }
static inline uint64_t ml_settings_line(uint32_t form, const uint8_t *text, uint64_t n) { return mittenload_settings_line(form, text, n); }
static inline uint32_t ml_settings_count(uint32_t form, const uint8_t *text, uint64_t n, uint64_t *count)
{
    return mittenload_settings_count(form, text, n, count);
}
static inline uint32_t ml_settings_read(uint32_t form, const uint8_t *text, uint64_t n, uint64_t place, ml_setting *record)
{
    return mittenload_settings_read(form, text, n, place, ML_RECORD(record));
}
static inline uint32_t ml_settings_put(uint32_t form, const uint8_t *text, uint64_t n, uint64_t place, const ml_setting *record, uint8_t *out,
                                       uint64_t m, uint64_t *count)
{
    return mittenload_settings_put(form, text, n, place, ML_RECORD(record), out, m, count);
}
static inline uint32_t ml_settings_forth(const uint8_t *text, uint64_t n, uint8_t *out, uint64_t m, uint64_t *count)
{
    return mittenload_settings_forth(text, n, out, m, count);
}
static inline uint32_t ml_settings_back(const uint8_t *text, uint64_t n, uint8_t *out, uint64_t m, uint64_t *count)
{
    return mittenload_settings_back(text, n, out, m, count);
}
static inline uint32_t ml_cic_of(uint32_t form, const ml_setting *record, ml_cic *s)
{
    return ml_cic_new(s, record->order, record->delay, form == 2 ? record->rate - 1 : record->rate);
}
static inline uint32_t ml_wdf_of(uint32_t form, const ml_setting *record, ml_lattice *s)
{
    ml_lattice made = {record->sections, record->architecture, {0}, {0}};
    for (int i = 0; i < 8; i++)
        made.a[i] = record->a[i];
    uint32_t refused = form == 2 ? ml_wdf_new(&made) : ml_wdf_from_form1(&made);
    if (refused == 0)
        *s = made;
    return refused;
}

/* RIFF WAVE of one channel and 16 bits, the 44-byte header form.
 *
 *   ml_wav_read_header(bytes, n, length, rate, size)   The header at the front of bytes, of a file of that length: samples a second, data bytes. 90.
 *   ml_wav_write_header(rate, size, out, m)            44 bytes to the front of out. 20, 90.
 *   ml_wav_read_part(bytes, n, out, m, count)          Samples to the front of out; how many, to *count. 20, 90 for an odd n.
 *   ml_wav_write_part(samples, n, out, m, count)       Bytes to the front of out; how many, to *count. 20, 91 for a sample outside int16_t.
 */
uint32_t mittenload_wav_read_header(const uint8_t *bytes, uint64_t n, uint64_t length, uint32_t *rate, uint32_t *size);
uint32_t mittenload_wav_write_header(uint32_t rate, uint32_t size, uint8_t *out, uint64_t m);
uint32_t mittenload_wav_read_part(const uint8_t *bytes, uint64_t n, int32_t *out, uint64_t m, uint64_t *count);
uint32_t mittenload_wav_write_part(const int32_t *samples, uint64_t n, uint8_t *out, uint64_t m, uint64_t *count);
static inline uint32_t ml_wav_read_header(const uint8_t *bytes, uint64_t n, uint64_t length, uint32_t *rate, uint32_t *size)
{
    return mittenload_wav_read_header(bytes, n, length, rate, size);
}
static inline uint32_t ml_wav_write_header(uint32_t rate, uint32_t size, uint8_t *out, uint64_t m)
{
    return mittenload_wav_write_header(rate, size, out, m);
}
static inline uint32_t ml_wav_read_part(const uint8_t *bytes, uint64_t n, int32_t *out, uint64_t m, uint64_t *count)
{
    return mittenload_wav_read_part(bytes, n, out, m, count);
}
static inline uint32_t ml_wav_write_part(const int32_t *samples, uint64_t n, uint8_t *out, uint64_t m, uint64_t *count)
{
    return mittenload_wav_write_part(samples, n, out, m, count);
}

#ifdef __cplusplus
}
#endif
#endif
