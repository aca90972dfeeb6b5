/* The library under faults: memories of the exact lengths and one number short, slices that are no record, forged
   records, small budgets, damaged orders. It is to be run under valgrind's memcheck, which sees every access outside a
   memory and every decision on a number that nobody wrote. The answers are held to documents 01 and 02 by a reading of its
   own, here and in calls.c, search.c and spell.c. */
#include "calls.h"
#include <math.h>
#include <stdio.h>
#include <stdlib.h>
#include <string.h>

/* ---- 01, read again: which refusal a call must answer, 0 for none */

/* The first point whose radial factor is at most 0.01, or n. */
static size_t formed(const double *r, const double *state)
{
    size_t n = points(r), i = 0;
    while (i < n && !(state[5 * n + i] <= 0.01))
        i++;
    return i;
}

/* The outcome of a record and its state. */
static uint32_t outcome_of(const double *r, const double *state)
{
    if (formed(r, state) < points(r))
        return COLLAPSE_COLLAPSED;
    if (r[COLLAPSE_AT_BROKEN] == 1.0)
        return COLLAPSE_BROKE;
    return r[COLLAPSE_AT_STEPS] >= 1.0 && r[COLLAPSE_AT_TIME] > r[COLLAPSE_AT_MAX_TIME] ? COLLAPSE_TIMED_OUT : COLLAPSE_SPENT;
}

static uint32_t begin_refusal(struct call c)
{
    uint32_t refusal = refusal_of(c, 0);
    if (refusal == 0 && c.record.at[COLLAPSE_AT_SKIP] == 0.0 && c.frames.length < frame_size(c.record.at))
        return COLLAPSE_REFUSED_FRAME_MEMORY;
    return refusal;
}

static uint32_t advance_refusal(struct call c, uint32_t budget)
{
    uint32_t refusal = refusal_of(c, 1);
    const double *r = c.record.at;
    if (refusal == 0 && r[COLLAPSE_AT_STEPS] + (double)budget > 2147483647.0 &&
        outcome_of(r, c.state.at) == COLLAPSE_SPENT)
        return COLLAPSE_REFUSED_STEPS;
    return refusal;
}

/* ---- a call, and what it must have left */

/* What lies beyond the used parts stays; the settings stay as numbers. */
static int kept(struct call before, struct call after)
{
    const double *r = after.record.at, *s = before.record.at;
    size_t n = points(r);
    for (size_t i = COLLAPSE_AT_AMPLITUDE; i <= COLLAPSE_AT_SKIP; i++)
        if (!(r[i] == s[i] || (isnan(r[i]) && isnan(s[i]))))
            return 0;
    return same(before.record, after.record, COLLAPSE_RECORD_SIZE) && same(before.state, after.state, 8 * n) &&
           same(before.work, after.work, 40 * n) &&
           same(before.frames, after.frames, (size_t)r[COLLAPSE_AT_FRAMES] * frame_size(r));
}

static int unchanged(struct call before, struct call after, int work)
{
    return same(before.record, after.record, 0) && same(before.state, after.state, 0) &&
           same(before.frames, after.frames, 0) && (!work || same(before.work, after.work, 0));
}

static uint32_t checked_begin(struct call c)
{
    struct call before = copies(c);
    uint32_t refusal = begin_refusal(c), answer = begin(c);
    count(answer);
    if (refusal != 0 ? answer != refusal : answer != COLLAPSE_BEGUN && answer != COLLAPSE_REFUSED_NAN)
        object("begin answers", before, 0, answer);
    if (answer != COLLAPSE_BEGUN && !unchanged(before, c, answer != COLLAPSE_REFUSED_NAN))
        object("a refused begin writes", before, 0, answer);
    if (answer == COLLAPSE_BEGUN) {
        const double *r = c.record.at;
        if (!kept(before, c) || r[COLLAPSE_AT_TIME] != 0.0 || r[COLLAPSE_AT_STEPS] != 0.0 || r[COLLAPSE_AT_BROKEN] != 0.0 ||
            r[COLLAPSE_AT_FRAMES] != 1.0 - r[COLLAPSE_AT_SKIP] || r[COLLAPSE_AT_ATTEMPTS] != 0.0 || r[COLLAPSE_AT_MASS] != 0.0)
            object("begin's record", c, 0, answer);
    }
    give_back(before);
    return answer;
}

/* Whether a record is one that an advance may leave, after so many steps. */
static int advanced(struct call c, double steps, uint32_t budget, uint32_t answer)
{
    const double *r = c.record.at;
    double made = r[COLLAPSE_AT_STEPS] - steps, frames = r[COLLAPSE_AT_FRAMES], full = r[COLLAPSE_AT_ATTEMPTS];
    double mass = r[COLLAPSE_AT_MASS], left = (double)c.frames.length - frames * (double)frame_size(r);
    size_t hole = formed(r, c.state.at);
    uint32_t outcome = outcome_of(r, c.state.at);
    if (made < 0.0 || frames > made || left < 0.0 || (frames > 0.0 && r[COLLAPSE_AT_SKIP] == 1.0))
        return 0;
    if (answer == COLLAPSE_FULL)
        return outcome == COLLAPSE_SPENT && full == made && full < (double)budget && left < (double)frame_size(r) &&
               mass == 0.0 && r[COLLAPSE_AT_SKIP] == 0.0;
    if (answer != outcome || full != 0.0 || made > (double)budget)
        return 0;
    if (answer == COLLAPSE_COLLAPSED) {
        double held = c.state.at[4 * points(r) + hole];
        return mass == held || (isnan(mass) && isnan(held));
    }
    return mass == 0.0 && (answer != COLLAPSE_SPENT || made == (double)budget);
}

static uint32_t checked_advance(struct call c, uint32_t budget)
{
    struct call before = copies(c);
    uint32_t refusal = advance_refusal(c, budget), answer = advance(c, budget);
    count(answer);
    if (refusal != 0 ? answer != refusal : answer < COLLAPSE_FULL || answer > COLLAPSE_SPENT)
        object("advance answers", before, budget, answer);
    if (refusal != 0 && !unchanged(before, c, 1))
        object("a refused advance writes", before, budget, answer);
    if (refusal == 0 && !kept(before, c))
        object("advance writes beyond", before, budget, answer);
    if (refusal == 0 && !advanced(c, before.record.at[COLLAPSE_AT_STEPS], budget, answer))
        object("advance's record", c, budget, answer);
    give_back(before);
    return answer;
}

/* ---- the cases */

/* A run in small budgets, from memories that nobody wrote to, of exactly the lengths that it needs. */
static void run_exactly(uint32_t level, double amplitude, int skip, size_t budgets)
{
    uint32_t dx_level = (uint32_t)below(level + 1);
    struct call c = memories(level, dx_level, skip ? 0 : 1, 0);
    settings(c, amplitude, level, 0.03125, dx_level, skip);
    if (begin(c) != COLLAPSE_BEGUN)
        object("begin of a run", c, 0, 0);
    uint32_t answer = COLLAPSE_SPENT;
    for (size_t i = 0; i < budgets && (answer == COLLAPSE_SPENT || answer == COLLAPSE_FULL); i++) {
        uint32_t budget = (uint32_t)below(9);
        double steps = c.record.at[COLLAPSE_AT_STEPS];
        answer = advance(c, budget);
        count(answer);
        if (answer < COLLAPSE_FULL || !advanced(c, steps, budget, answer))
            object("advance of a run", c, budget, answer);
    }
    give_back(c);
}

/* Every memory in turn one number short, and none at all. */
static void too_short(uint32_t level)
{
    for (int which = 0; which < 8; which++) {
        struct call c = memories(level, 2, 1, 0);
        struct memory *m[] = {&c.record, &c.state, &c.work, &c.frames};
        settings(c, 1.0, level, 0.25, 2, 0);
        for (size_t i = COLLAPSE_AT_TIME; i < COLLAPSE_RECORD_SIZE; i++)
            c.record.at[i] = 0.0;
        struct memory shorter = lend(which < 4 ? m[which]->length - 1 : 0);
        fill(shorter);
        if (which == 0)
            memcpy(shorter.at, c.record.at, shorter.length * sizeof *shorter.at);
        free(m[which % 4]->at);
        *m[which % 4] = shorter;
        for (int k = 0; k < 4; k++)
            if (k != which % 4 && k != 0)
                fill(*m[k]);
        checked_begin(c);
        checked_advance(c, 2);
        give_back(c);
    }
}

/* A record of forged numbers; some stay as a run's. */
static void forged(uint32_t level, int all)
{
    uint32_t dx_level = (uint32_t)below(level + 1);
    struct call c = memories(level, dx_level, below(3), below(3));
    fill(c.record);
    fill(c.state);
    fill(c.work);
    fill(c.frames);
    settings(c, 1.0, level, 0.03125, dx_level, (int)below(2));
    c.record.at[COLLAPSE_AT_TIME] = (double)below(8) / 8.0;
    c.record.at[COLLAPSE_AT_STEPS] = (double)below(3);
    c.record.at[COLLAPSE_AT_BROKEN] = 0.0;
    for (size_t i = 0; i < COLLAPSE_RECORD_SIZE; i++)
        if (all || below(6) == 0)
            c.record.at[i] = any_float();
    if (below(3) == 0)
        checked_begin(c);
    checked_advance(c, below(8) == 0 ? 2147483648u + (uint32_t)below(3) : (uint32_t)below(5));
    give_back(c);
}

/* The last budget that a record's steps allow, and the first that they do not. */
static void many_steps(uint32_t level, uint32_t budget)
{
    struct call c = memories(level, 0, 0, 0);
    fill(c.record);
    fill(c.state);
    fill(c.work);
    settings(c, 1.0, level, 0.25, 0, 1);
    checked_begin(c);
    c.record.at[COLLAPSE_AT_STEPS] = 2147483647.0 - budget;
    checked_advance(c, budget + 1);
    checked_advance(c, budget);
    checked_advance(c, 1);
    give_back(c);
}

/* One number of a good record replaced by each forged float. */
static void one_forged(uint32_t level, size_t place)
{
    struct call c = memories(level, 3, 2, 1);
    fill(c.record);
    fill(c.state);
    fill(c.work);
    fill(c.frames);
    settings(c, 1.0, level, 0.25, 3, 0);
    checked_begin(c);
    checked_advance(c, 3);
    c.record.at[place] = any_float();
    checked_advance(c, 3);
    c.record.at[place] = any_float();
    checked_begin(c);
    give_back(c);
}

int main(int count, char **words)
{
    size_t rounds = count > 1 ? strtoull(words[1], NULL, 10) : 100;
    seed = count > 2 ? 2 * strtoull(words[2], NULL, 10) + 1 : 1;
    for (uint32_t level = 5; level <= 8; level++) {
        too_short(level);
        search_too_short(level);
        for (uint32_t budget = 0; budget < 4; budget++)
            many_steps(level, budget);
        for (int skip = 0; skip < 2; skip++)
            for (double amplitude = 0.0; amplitude < 100.0; amplitude += 30.0)
                run_exactly(level, amplitude, skip, 20);
        for (size_t i = 0; i < rounds; i++) {
            forged(level, i % 4 == 0);
            one_forged(level, i % COLLAPSE_RECORD_SIZE);
            search_forged(level, i % 8 == 0);
        }
        fprintf(stderr, "level %u: %lu calls\n", (unsigned)level, calls);
    }
    spell_lengths();
    spell_damaged(20 * rounds);
    fprintf(stderr, "spellings: %lu calls\n", calls);
    printf("%lu calls, every answer as the documents have it:", calls);
    for (size_t i = 0; i <= COLLAPSE_SPENT; i++)
        if (answers[i] > 0)
            printf(" %lu x %zu", answers[i], i);
    printf("\n");
    return 0;
}
