/* The search of level 5 that README has, or its runs by begin and advance: count search | count calls. bench/count runs both
   under valgrind, which counts their instructions. */
#include "collapse.h"
#include <stdio.h>
#include <stdlib.h>
#include <string.h>

enum { LEVEL = 5, HALVINGS = 40, BUDGET = 1000, STATES = 8 * 33, WORKS = 40 * 33 };

static double state[STATES], work[WORKS];

static void settings(double *record, double amplitude)
{
    double s[] = {amplitude, LEVEL, 4.0, 1.0, 0.0, 1.0};
    memcpy(record, s, sizeof s);
}

static int collapses(uint64_t units)
{
    double record[COLLAPSE_RECORD_SIZE] = {0}, none;
    settings(record, (double)units * 0x1p-36);
    if (collapse_begin(record, COLLAPSE_RECORD_SIZE, state, STATES, work, WORKS, &none, 0) != COLLAPSE_BEGUN)
        exit(1);
    return collapse_advance(record, COLLAPSE_RECORD_SIZE, state, STATES, work, WORKS, &none, 0, BUDGET) == COLLAPSE_COLLAPSED;
}

static void by_calls(uint64_t low, uint64_t high, double *found)
{
    if (collapses(low) || !collapses(high))
        exit(1);
    for (int made = 0; made < HALVINGS; made++) {
        uint64_t middle = (low + high) / 2;
        *(collapses(middle) ? &high : &low) = middle;
    }
    found[0] = (double)low;
    found[1] = (double)high;
}

int main(int count, char **words)
{
    double record[COLLAPSE_RECORD_SIZE] = {0}, found[COLLAPSE_FOUND_SIZE];
    uint64_t low = (uint64_t)20 << 36, high = (uint64_t)40 << 36;
    settings(record, 0.0);
    if (count > 1 && strcmp(words[1], "calls") == 0)
        by_calls(low, high, found);
    else if (collapse_search(record, COLLAPSE_RECORD_SIZE, 0x1p-36, low, high, HALVINGS, BUDGET, state, STATES, work, WORKS,
                             found, COLLAPSE_FOUND_SIZE) != COLLAPSE_FOUND)
        return 1;
    printf("%.0f %.0f\n", found[0], found[1]);
    return 0;
}
