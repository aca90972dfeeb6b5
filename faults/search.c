/* The search under faults. Its answers are held to document 02 by a loop over begin and advance. */
#include "calls.h"
#include <stdlib.h>

/* What is asked of a search. */
struct asked {
    double unit;
    uint64_t low, high;
    uint32_t halvings, budget;
};

/* What a search answers. */
struct bracket {
    uint32_t answer, made, why;
    uint64_t low, high;
};

static int begun(uint32_t answer)
{
    return answer >= COLLAPSE_FULL || answer == COLLAPSE_REFUSED_STEPS;
}

/* The run at so many units, on memories of its own: what begin refuses with, or what advance answers. */
static uint32_t ran(struct call c, struct asked a, uint64_t units)
{
    struct call own = copies(c);
    own.record.at[COLLAPSE_AT_AMPLITUDE] = (double)units * a.unit;
    own.record.at[COLLAPSE_AT_SKIP] = 1.0;
    uint32_t answer = begin(own);
    if (answer == COLLAPSE_BEGUN)
        answer = advance(own, a.budget);
    give_back(own);
    return answer;
}

/* ---- 02, read again */

static uint32_t first_refusal(struct call c, struct asked a, struct memory result)
{
    uint32_t refusal = refusal_of(c, 0);
    if (refusal == COLLAPSE_REFUSED_RECORD)
        return refusal;
    if (result.length < COLLAPSE_FOUND_SIZE)
        return COLLAPSE_REFUSED_RESULT;
    if (!(a.low < a.high && a.high <= (uint64_t)1 << 42 && a.halvings <= 40))
        return COLLAPSE_REFUSED_SEARCH;
    return refusal;
}

static uint32_t ends_refusal(struct call c, struct asked a)
{
    uint32_t low = ran(c, a, a.low), high = ran(c, a, a.high);
    if (!begun(low))
        return low;
    if (!begun(high))
        return high;
    return low == COLLAPSE_TIMED_OUT && high == COLLAPSE_COLLAPSED ? COLLAPSE_FOUND : COLLAPSE_REFUSED_ENDS;
}

static struct bracket halved(struct call c, struct asked a)
{
    struct bracket b = {COLLAPSE_FOUND, 0, COLLAPSE_WHY_USED, a.low, a.high};
    for (; b.made < a.halvings; b.made++) {
        uint64_t middle = (b.low + b.high) / 2;
        if (b.high - b.low == 1) {
            b.why = COLLAPSE_WHY_ADJACENT;
            return b;
        }
        uint32_t answer = ran(c, a, middle);
        if (answer != COLLAPSE_TIMED_OUT && answer != COLLAPSE_COLLAPSED) {
            b.why = answer < COLLAPSE_FULL ? answer : COLLAPSE_WHY_NEITHER;
            return b;
        }
        *(answer == COLLAPSE_TIMED_OUT ? &b.low : &b.high) = middle;
    }
    return b;
}

static struct bracket sought(struct call c, struct asked a, struct memory result)
{
    struct bracket b = {first_refusal(c, a, result), 0, 0, 0, 0};
    if (b.answer == 0)
        b.answer = ends_refusal(c, a);
    return b.answer == COLLAPSE_FOUND ? halved(c, a) : b;
}

/* ---- a call, and what it must have left */

static uint32_t search(struct call c, struct asked a, struct memory result)
{
    return collapse_search(c.record.at, c.record.length, a.unit, a.low, a.high, a.halvings, a.budget, c.state.at, c.state.length,
                           c.work.at, c.work.length, result.at, result.length);
}

/* Whether no run was made. */
static int early(uint32_t answer)
{
    return answer != COLLAPSE_FOUND && answer != COLLAPSE_REFUSED_NAN && answer != COLLAPSE_REFUSED_ENDS;
}

static int stays(struct call before, struct call after, uint32_t answer)
{
    size_t n = early(answer) ? 0 : points(before.record.at);
    return same(before.record, after.record, 0) && same(before.state, after.state, 8 * n) &&
           same(before.work, after.work, 40 * n);
}

static int laid_out(struct bracket b, struct memory before, struct memory result)
{
    if (b.answer != COLLAPSE_FOUND)
        return same(before, result, 0);
    return result.at[COLLAPSE_FOUND_AT_LOW] == (double)b.low && result.at[COLLAPSE_FOUND_AT_HIGH] == (double)b.high &&
           result.at[COLLAPSE_FOUND_AT_MADE] == b.made && result.at[COLLAPSE_FOUND_AT_WHY] == b.why &&
           same(before, result, COLLAPSE_FOUND_SIZE);
}

static void checked_search(struct call c, struct asked a, struct memory result)
{
    struct call before = copies(c);
    struct memory earlier = copy_of(result);
    struct bracket b = sought(c, a, result);
    uint32_t answer = search(c, a, result);
    count(answer);
    if (answer != b.answer)
        object("search answers", before, a.budget, answer);
    if (!stays(before, c, answer))
        object("search writes beyond", before, a.budget, answer);
    if (!laid_out(b, earlier, result))
        object("search's result", before, a.budget, answer);
    free(earlier.at);
    give_back(before);
}

/* ---- the cases */

/* Every memory in turn one number short, and none at all; last, state and work memory that nobody wrote to. */
void search_too_short(uint32_t level)
{
    for (int which = 0; which < 9; which++) {
        struct call c = memories(level, 2, 0, 0);
        struct memory result = lend(COLLAPSE_FOUND_SIZE), *m[] = {&c.record, &c.state, &c.work, &result};
        struct asked a = {0.5, 0, 128, 3, 40};
        fill(c.record);
        fill(result);
        settings(c, 1.0, level, 0.25, 2, 0);
        if (which < 8) {
            struct memory *it = m[which % 4], shorter = lend(which < 4 ? it->length - 1 : 0);
            free(it->at);
            *it = shorter;
            fill(*it);
            fill(c.state);
            fill(c.work);
        }
        if (which == 0)
            settings(c, 1.0, level, 0.25, 2, 0);
        checked_search(c, a, result);
        free(result.at);
        give_back(c);
    }
}

/* Forged settings and ends; some are those of a search that finds a bracket. */
void search_forged(uint32_t level, int all)
{
    static const double units[] = {0.5, 1.0, -0.5, 0.0, 4.0, 0x1p-34};
    struct call c = memories(level, 2, 0, below(3));
    struct memory result = lend(COLLAPSE_FOUND_SIZE + below(2));
    struct asked a = {units[below(6)], below(20), 60 + below(150), (uint32_t)below(9), (uint32_t)below(60)};
    fill(c.record);
    fill(c.state);
    fill(c.work);
    fill(result);
    settings(c, any_float(), level, 0.25, 2, (int)below(2));
    c.record.at[COLLAPSE_AT_MAX_TIME] = (double)below(4) / 16.0;
    for (size_t i = COLLAPSE_AT_LEVEL; i <= COLLAPSE_AT_SKIP; i++)
        if (all || below(12) == 0)
            c.record.at[i] = any_float();
    if (below(8) == 0)
        a.unit = any_float();
    if (below(8) == 0)
        a.low = below(2) ? a.high : UINT64_MAX;
    if (below(8) == 0)
        a.high = ((uint64_t)1 << 42) + below(2);
    if (below(8) == 0)
        a.halvings = 40 + (uint32_t)below(2);
    if (below(8) == 0) {
        a.budget = 2147483647u + (uint32_t)below(3);
        c.record.at[COLLAPSE_AT_MAX_TIME] = 0.125;
    }
    checked_search(c, a, result);
    free(result.at);
    give_back(c);
}
