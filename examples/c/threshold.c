/* The threshold amplitude of level 5 before time 4, between 20 and 40, by 40 halvings. */
#include "collapse.h"
#include <stdio.h>
#include <stdlib.h>

enum { LEVEL = 5, HALVINGS = 40, BUDGET = 1000 };

/* 2^-36: 2^42 of these units are amplitude 64. */
static const double unit = 16 * COLLAPSE_UNIT;

static const char *reason(double why)
{
    if (why == COLLAPSE_WHY_USED)
        return "the halvings are used";
    if (why == COLLAPSE_WHY_ADJACENT)
        return "the ends differ by 1 unit";
    return why == COLLAPSE_WHY_NEITHER ? "the middle's run is neither timeout nor collapse" : "the middle's run is refused";
}

static void print(const double *found)
{
    printf("timeout  at %.17g\n", found[COLLAPSE_FOUND_AT_LOW] * unit);
    printf("collapse at %.17g\n", found[COLLAPSE_FOUND_AT_HIGH] * unit);
    printf("%.0f and %.0f units of 2^-36, %.0f halvings made: %s\n", found[COLLAPSE_FOUND_AT_LOW],
           found[COLLAPSE_FOUND_AT_HIGH], found[COLLAPSE_FOUND_AT_MADE], reason(found[COLLAPSE_FOUND_AT_WHY]));
}

int main(void)
{
    double record[COLLAPSE_RECORD_SIZE] = {0}, found[COLLAPSE_FOUND_SIZE];
    size_t states = collapse_state_size(LEVEL), works = collapse_work_size(LEVEL);
    double *state = malloc(states * sizeof *state), *work = malloc(works * sizeof *work);
    if (state == NULL || work == NULL) {
        fputs("no memory\n", stderr);
        return 1;
    }
    record[COLLAPSE_AT_LEVEL] = LEVEL;
    record[COLLAPSE_AT_MAX_TIME] = 4.0;
    record[COLLAPSE_AT_INTERVAL] = 1.0;
    uint64_t low = (uint64_t)20 << 36, high = (uint64_t)40 << 36;
    uint32_t answer = collapse_search(record, COLLAPSE_RECORD_SIZE, unit, low, high, HALVINGS, BUDGET, state, states, work,
                                      works, found, COLLAPSE_FOUND_SIZE);
    if (answer == COLLAPSE_FOUND)
        print(found);
    else
        fprintf(stderr, "search refused: %u\n", (unsigned)answer);
    free(work);
    free(state);
    return answer == COLLAPSE_FOUND ? 0 : 1;
}
