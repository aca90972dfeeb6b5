/* How many numbers of a state are others where the processor is not in the mode in which a C program starts. */
#include "collapse.h"
#include <stdio.h>
#include <stdlib.h>
#include <string.h>
#include <xmmintrin.h>

enum { LEVEL = 5, STEPS = 17, POINTS = 33, STATE = 8 * POINTS, WORK = 40 * POINTS };

/* The state after STEPS steps of a run. */
static void run(double amplitude, double *state)
{
    static double work[WORK], frames[1];
    double record[COLLAPSE_RECORD_SIZE] = {amplitude, LEVEL, 4.0, 1.0, 0, 1};
    uint32_t begun = collapse_begin(record, COLLAPSE_RECORD_SIZE, state, STATE, work, WORK, frames, 1);
    if (begun == COLLAPSE_BEGUN)
        collapse_advance(record, COLLAPSE_RECORD_SIZE, state, STATE, work, WORK, frames, 1, STEPS);
    if (begun != COLLAPSE_BEGUN || record[COLLAPSE_AT_STEPS] != STEPS) {
        fprintf(stderr, "faults/modes: the run at amplitude %g has not made %d steps\n", amplitude, STEPS);
        exit(1);
    }
}

/* Compares with the state that is made while the modes of the control register are set. */
static void compare(const char *mode, unsigned modes, double amplitude)
{
    static double usual[STATE], other[STATE];
    unsigned differ = 0, before = _mm_getcsr();
    run(amplitude, usual);
    _mm_setcsr(before | modes);
    run(amplitude, other);
    _mm_setcsr(before);
    for (int i = 0; i < STATE; i++)
        differ += memcmp(&usual[i], &other[i], sizeof(double)) != 0;
    printf("%s, amplitude %g: %u of %d numbers differ\n", mode, amplitude, differ, STATE);
}

int main(void)
{
    compare("rounding up", _MM_ROUND_UP, 40.0);
    compare("rounding down", _MM_ROUND_DOWN, 40.0);
    compare("rounding toward zero", _MM_ROUND_TOWARD_ZERO, 40.0);
    compare("subnormal results as zero", _MM_FLUSH_ZERO_ON, 1e-150);
    return 0;
}
