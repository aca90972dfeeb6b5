/* Scalar field collapse in budgets: the functions of crates/capi, for C and whatever calls C. `tools/build capi` writes
   the archive, target/staticlib/libcapi.a, which needs no other library.

   A memory is a pointer, then how many numbers there are: doubles, or the bytes of collapse_spell. No two memories of a
   call may overlap. A memory of length 0 is neither read nor written, whatever its pointer. Nothing is kept between calls
   but what the caller lends, so that runs may go on side by side, in threads too.

   Every call takes any numbers, any bytes and any lengths. One that is refused changes nothing in the record, in state
   memory, in frame memory and in lent bytes; but to collapse_search state memory is scratch, so that the state of a run
   that is lent to it is lost, also where it is refused with 13 or 16.

   A caller leaves the floating-point mode as a C program finds it: rounding to nearest, subnormal numbers on (no
   FTZ, no DAZ, not -ffast-math). In another mode every call is as safe, but the numbers of a run are others. */
#ifndef COLLAPSE_H
#define COLLAPSE_H

#include <stddef.h>
#include <stdint.h>

#ifdef __cplusplus
extern "C" {
#endif

/* The record: twelve doubles. The caller writes the settings, 0 to 5, before collapse_begin; collapse_begin and
   collapse_advance write all twelve, the settings as they read them, unless they refuse. Between calls the caller may
   copy a record, with its state memory, and go on from either. */
enum collapse_place {
    /* settings */
    COLLAPSE_AT_AMPLITUDE = 0,
    COLLAPSE_AT_LEVEL = 1,    /* whole: 5 to 16; n = 2^level + 1 points */
    COLLAPSE_AT_MAX_TIME = 2,
    COLLAPSE_AT_INTERVAL = 3, /* of time, from frame to frame; at least 1/n */
    COLLAPSE_AT_DX_LEVEL = 4, /* whole: 0 to level; 2^dx_level + 1 samples of each vector in a frame */
    COLLAPSE_AT_SKIP = 5,     /* 1: no frames, 0: frames */
    /* how far the run is */
    COLLAPSE_AT_TIME = 6,
    COLLAPSE_AT_STEPS = 7,    /* whole: steps made, over all calls */
    COLLAPSE_AT_BROKEN = 8,   /* 1: a step would have held a NaN and was not made, else 0 */
    /* the last call's answer; not read by any call */
    COLLAPSE_AT_FRAMES = 9,   /* how many frames it wrote */
    COLLAPSE_AT_ATTEMPTS = 10, /* COLLAPSE_FULL: how many attempts of the budget were made; else 0 */
    COLLAPSE_AT_MASS = 11,    /* COLLAPSE_COLLAPSED: the black hole's mass; else 0 */
    COLLAPSE_RECORD_SIZE = 12
};

/* What the calls answer. Below 100 every number is one of the documents', from 100 on one of our own. An answer below
   COLLAPSE_FULL is a refusal, or COLLAPSE_BEGUN, COLLAPSE_FOUND or COLLAPSE_SPELLED, which are 0. */
enum collapse_answer {
    /* collapse_begin: the run has begun */
    COLLAPSE_BEGUN = 0,
    /* collapse_search: the bracket is found */
    COLLAPSE_FOUND = 0,
    /* collapse_spell: the order is written */
    COLLAPSE_SPELLED = 0,
    /* refusals; 1 to 4 are collapse_spell's alone, each with a position */
    COLLAPSE_REFUSED_CUT = 1,           /* an operand runs past the end (position of its command), or no 09 came
                                           (position: the length) */
    COLLAPSE_REFUSED_COMMAND = 2,       /* a byte outside 01 to 09, or a skip above 1 */
    COLLAPSE_REFUSED_SEQUENCE = 3,      /* a setting repeated or after 07; a second 07; 08 before 07; a byte after 09 */
    COLLAPSE_REFUSED_MISSING = 4,       /* 07 with a setting missing; 09 before 07 */
    COLLAPSE_REFUSED_LEVEL = 5,         /* level below 5 or above 16 */
    COLLAPSE_REFUSED_INTERVAL = 6,      /* interval times n is below 1 */
    COLLAPSE_REFUSED_DX_LEVEL = 7,      /* dx level above level */
    COLLAPSE_REFUSED_MEMORY = 11,       /* state or work memory too short */
    COLLAPSE_REFUSED_FRAME_MEMORY = 12, /* collapse_begin, not skipped: no room for a frame */
    COLLAPSE_REFUSED_NAN = 13,          /* collapse_begin, collapse_search: the initial state holds a NaN */
    COLLAPSE_REFUSED_STEPS = 14,        /* collapse_advance, run not ended: steps + budget above 2147483647 */
    COLLAPSE_REFUSED_SEARCH = 15,       /* collapse_search: not low < high <= 2^42, or halvings above 40 */
    COLLAPSE_REFUSED_ENDS = 16,         /* collapse_search: low's run is not timeout, or high's is not collapse */
    COLLAPSE_REFUSED_ROOM = 17,         /* collapse_spell: fewer bytes for the spelling than the order has */
    COLLAPSE_REFUSED_RECORD = 101,      /* no record: fewer than 12 numbers; a level, a dx level or (collapse_advance)
                                           steps that is no whole number from 0 to 4294967295; a skip or (collapse_advance)
                                           a broken mark that is neither 0 nor 1. Tested before all else. */
    COLLAPSE_REFUSED_RESULT = 102,      /* collapse_search: fewer than 4 numbers for the result. Tested next. */
    /* collapse_advance: how the run stands */
    COLLAPSE_FULL = 110,      /* the next attempt makes a frame and frame memory has no room; call again with the rest */
    COLLAPSE_COLLAPSED = 111, /* ended: a black hole formed */
    COLLAPSE_BROKE = 112,     /* ended: a step would have held a NaN */
    COLLAPSE_TIMED_OUT = 113, /* ended: past max time */
    COLLAPSE_SPENT = 114      /* not ended: the budget is used up */
};

/* How many doubles state and work memory need at a level; 0 for a level outside 5 to 16. */
size_t collapse_state_size(uint32_t level);
size_t collapse_work_size(uint32_t level);

/* How many doubles a frame has at a dx level; 0 for a dx level above 16. */
size_t collapse_frame_size(uint32_t dx_level);

/* Begins the run whose settings the record holds.
   State memory, at least collapse_state_size doubles, holds the state between calls: field, momentum, alternate mass,
   energy density, mass, radial factor, lapse, char speed, each of n numbers, one after another.
   Work memory, at least collapse_work_size doubles, is scratch: what it holds after a call is not told, another may be
   lent to every call.
   Frame memory has any length; frames are written from its first number on. A frame is time, then the samples of field,
   radial gradient, momentum, mass, radial factor, lapse, char speed, energy density, then total energy, then the samples
   of alternate mass. Unless skipped, collapse_begin writes the first frame. */
uint32_t collapse_begin(double *record, size_t record_length, double *state, size_t state_length, double *work,
                        size_t work_length, double *frames, size_t frames_length);

/* Goes on with the run by at most so many attempts. A run that has ended makes none and answers its end again. */
uint32_t collapse_advance(double *record, size_t record_length, double *state, size_t state_length, double *work,
                          size_t work_length, double *frames, size_t frames_length, uint32_t budget);

/* A search's result: four doubles, each a whole number. */
enum collapse_found {
    COLLAPSE_FOUND_AT_LOW = 0,  /* units; the run there is timeout */
    COLLAPSE_FOUND_AT_HIGH = 1, /* units; the run there is collapse */
    COLLAPSE_FOUND_AT_MADE = 2, /* halvings made */
    COLLAPSE_FOUND_AT_WHY = 3,  /* why it stopped: a number below; a middle that is refused is so with 13 */
    COLLAPSE_FOUND_SIZE = 4
};

enum collapse_why {
    COLLAPSE_WHY_USED = 0,     /* the halvings are used */
    COLLAPSE_WHY_ADJACENT = 1, /* the ends differ by 1 */
    COLLAPSE_WHY_NEITHER = 2,  /* the run at the middle is neither timeout nor collapse: spent or broken */
    COLLAPSE_WHY_REFUSED = 13  /* the run at the middle is refused: its initial state holds a NaN */
};

/* Document 02's unit, 2^-40. Up to 2^42 of it are amplitude 4, where no run of ours collapsed; a larger unit reaches
   further. */
#define COLLAPSE_UNIT (1.0 / 1099511627776.0) /* 0x1p-40, which C++ has from C++17 on */

/* Brackets the threshold amplitude by halving: a low end whose run times out and a high end whose run collapses, in units
   of `unit`. Settings are those of the record, but the amplitude of a run is units times `unit`, rounded once, and every
   run is a skip run: the record's amplitude and skip are not used. Each run makes at most `budget` attempts. Each halving
   runs the middle, (low + high)/2 rounded down, and searches the half that remains. Nothing is assumed of the
   amplitudes between: outcomes need not be monotone in the amplitude, and a bracket need not be the only one.
   The record is only read. State and work memory, as for collapse_begin, are scratch. The result is written where the
   answer is COLLAPSE_FOUND; a refusal writes nothing to it.
   The answer: COLLAPSE_FOUND, else the first refusal of 101, 102, 15, collapse_begin's for low (5, 6, 7, 11, 13), then for
   high, 16. */
uint32_t collapse_search(const double *record, size_t record_length, double unit, uint64_t low, uint64_t high,
                         uint32_t halvings, uint32_t budget, double *state, size_t state_length, double *work,
                         size_t work_length, double *result, size_t result_length);

/* Writes the one spelling of an order: its settings as 01 to 06, then 07, the advances and 09 as they stand. Two orders
   that are not refused have the same spelling exactly if their settings (floats by bits) and their lists of budgets are
   the same. The spelling of a spelling is itself.
   An order is bytes, as the program reads them, of any length here: 01 amplitude (8 bytes follow), 02 level (1), 03 max
   time (8), 04 interval (8), 05 dx level (1), 06 skip (1; 0 or 1), these six once each in any sequence; 07 begin; any
   number of 08 advance (4); 09 end. A number's lowest byte stands first. Settings that collapse_begin refuses are spelled
   like others.
   The order is only read. Its spelling is as long as the order and is written from the first byte of `out` on; the bytes
   behind it stay. `order` and `out` may not overlap.
   `position` points to one size_t, which lies in neither of them. Where the answer is 1 to 4 it is set to the position of
   the first command at fault, counted from 0; with any other answer it stays.
   The answer: COLLAPSE_SPELLED, else 1 to 4, else 17. A refusal writes nothing to `out`. */
uint32_t collapse_spell(const uint8_t *order, size_t order_length, uint8_t *out, size_t out_length, size_t *position);

#ifdef __cplusplus
}
#endif

#endif
