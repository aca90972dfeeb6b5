/* A run at level 10 in budgets of 500 attempts, its frames kept. */
#include "collapse.h"
#include <stdio.h>
#include <stdlib.h>
#include <string.h>

enum { LEVEL = 10, DX_LEVEL = 6, ROOM = 4, BUDGET = 500 };

/* A run's record, the memories that it lends to every call, and the frames of all calls, one after another. */
struct run {
    double record[COLLAPSE_RECORD_SIZE];
    double *state, *work, *frames, *kept;
    size_t states, works, size, room, count;
};

static double *numbers(double *old, size_t count)
{
    double *memory = realloc(old, count * sizeof *memory);
    if (memory == NULL) {
        fputs("no memory\n", stderr);
        exit(1);
    }
    return memory;
}

static void lend(struct run *run)
{
    run->states = collapse_state_size(LEVEL);
    run->works = collapse_work_size(LEVEL);
    run->size = collapse_frame_size(DX_LEVEL);
    run->room = ROOM * run->size;
    run->state = numbers(NULL, run->states);
    run->work = numbers(NULL, run->works);
    run->frames = numbers(NULL, run->room);
}

static void keep(struct run *run)
{
    size_t more = (size_t)run->record[COLLAPSE_AT_FRAMES];
    if (more == 0)
        return;
    run->kept = numbers(run->kept, (run->count + more) * run->size);
    memcpy(run->kept + run->count * run->size, run->frames, more * run->size * sizeof *run->kept);
    run->count += more;
}

static void begin(struct run *run)
{
    uint32_t answer = collapse_begin(run->record, COLLAPSE_RECORD_SIZE, run->state, run->states, run->work, run->works,
                                     run->frames, run->room);
    if (answer != COLLAPSE_BEGUN) {
        fprintf(stderr, "begin refused: %u\n", (unsigned)answer);
        exit(1);
    }
    keep(run);
}

/* So many attempts, in as many calls as the frame memory asks for; the outcome's number. */
static uint32_t advance(struct run *run, uint32_t budget)
{
    for (;;) {
        uint32_t answer = collapse_advance(run->record, COLLAPSE_RECORD_SIZE, run->state, run->states, run->work,
                                           run->works, run->frames, run->room, budget);
        if (answer < COLLAPSE_FULL) {
            fprintf(stderr, "advance refused: %u\n", (unsigned)answer);
            exit(1);
        }
        keep(run);
        if (answer != COLLAPSE_FULL)
            return answer;
        budget -= (uint32_t)run->record[COLLAPSE_AT_ATTEMPTS];
    }
}

static const char *name_of(uint32_t answer)
{
    if (answer == COLLAPSE_COLLAPSED)
        return "collapse";
    return answer == COLLAPSE_BROKE ? "broken" : "timeout";
}

static void print(const struct run *run, uint32_t answer)
{
    printf("outcome %s\n", name_of(answer));
    printf("steps %.0f\n", run->record[COLLAPSE_AT_STEPS]);
    printf("time %.17g\n", run->record[COLLAPSE_AT_TIME]);
    if (answer == COLLAPSE_COLLAPSED)
        printf("mass %.17g\n", run->record[COLLAPSE_AT_MASS]);
    printf("frames %zu of %zu numbers, the last at time %.17g\n", run->count, run->size,
           run->kept[(run->count - 1) * run->size]);
}

int main(void)
{
    struct run run = {0};
    run.record[COLLAPSE_AT_AMPLITUDE] = 40.0;
    run.record[COLLAPSE_AT_LEVEL] = LEVEL;
    run.record[COLLAPSE_AT_MAX_TIME] = 2.0;
    run.record[COLLAPSE_AT_INTERVAL] = 0.0625;
    run.record[COLLAPSE_AT_DX_LEVEL] = DX_LEVEL;
    run.record[COLLAPSE_AT_SKIP] = 0.0;
    lend(&run);
    begin(&run);
    uint32_t answer;
    do {
        answer = advance(&run, BUDGET);
        printf("%4.0f steps, time %.6f, %zu frames\n", run.record[COLLAPSE_AT_STEPS], run.record[COLLAPSE_AT_TIME],
               run.count);
    } while (answer == COLLAPSE_SPENT);
    print(&run, answer);
    free(run.kept);
    free(run.frames);
    free(run.work);
    free(run.state);
    return 0;
}
