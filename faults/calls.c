/* Memories of exact lengths, floats that are drawn, and the refusals that all calls share. */
#include "calls.h"
#include <math.h>
#include <stdio.h>
#include <stdlib.h>
#include <string.h>

uint64_t seed = 1;
unsigned long calls = 0, answers[COLLAPSE_SPENT + 1];

/* A number past the last is no answer: the caller objects to it. */
void count(uint32_t answer)
{
    calls++;
    if (answer <= COLLAPSE_SPENT)
        answers[answer]++;
}

static uint64_t draw(void)
{
    seed ^= seed << 13;
    seed ^= seed >> 7;
    seed ^= seed << 17;
    return seed;
}

size_t below(size_t bound)
{
    return (size_t)(draw() % bound);
}

/* A memory of exactly so many numbers; of none, no memory at all. */
struct memory lend(size_t length)
{
    struct memory m = {NULL, length};
    if (length > 0 && (m.at = malloc(length * sizeof *m.at)) == NULL)
        exit(2);
    return m;
}

struct memory copy_of(struct memory m)
{
    struct memory c = lend(m.length);
    if (m.length > 0)
        memcpy(c.at, m.at, m.length * sizeof *m.at);
    return c;
}

/* Whether two memories hold the same bits from a number on. */
int same(struct memory a, struct memory b, size_t from)
{
    return from >= a.length || memcmp(a.at + from, b.at + from, (a.length - from) * sizeof *a.at) == 0;
}

double any_float(void)
{
    static const double some[] = {0.0, -0.0, 1.0, -1.0, 0.5, 0.01, 2.0, 5.0, 5.5, 6.0, 7.0, 8.0, 16.0, 17.0, 40.0, 261.0,
                                  -0.5, 1e-310, 1e308, -1e308, 2147483647.0, 4294967295.0, 4294967296.0, 4294967301.0,
                                  18446744073709551616.0, INFINITY, -INFINITY, NAN};
    size_t count = sizeof some / sizeof *some, i = below(count + 4);
    uint64_t bits = draw();
    double x;
    if (i < count)
        return some[i];
    memcpy(&x, &bits, sizeof x);
    return x;
}

/* Numbers between 0 and 1, now and then any. */
void fill(struct memory m)
{
    for (size_t i = 0; i < m.length; i++)
        m.at[i] = below(50) == 0 ? any_float() : (double)below(1 << 20) / (1 << 20);
}

struct call copies(struct call c)
{
    struct call d = {copy_of(c.record), copy_of(c.state), copy_of(c.work), copy_of(c.frames)};
    return d;
}

void give_back(struct call c)
{
    free(c.record.at);
    free(c.state.at);
    free(c.work.at);
    free(c.frames.at);
}

uint32_t begin(struct call c)
{
    return collapse_begin(c.record.at, c.record.length, c.state.at, c.state.length, c.work.at, c.work.length, c.frames.at,
                          c.frames.length);
}

uint32_t advance(struct call c, uint32_t budget)
{
    return collapse_advance(c.record.at, c.record.length, c.state.at, c.state.length, c.work.at, c.work.length, c.frames.at,
                            c.frames.length, budget);
}

void object(const char *what, struct call c, uint32_t budget, uint32_t answer)
{
    printf("%s: answer %u, budget %u, lengths %zu %zu %zu %zu\nrecord", what, (unsigned)answer, (unsigned)budget,
           c.record.length, c.state.length, c.work.length, c.frames.length);
    for (size_t i = 0; i < c.record.length; i++)
        printf(" %.17g", c.record.at[i]);
    printf("\n");
    exit(1);
}

/* ---- 01, read again */

static int whole(double x)
{
    return x >= 0.0 && x <= 4294967295.0 && x == floor(x);
}

static int mark(double x)
{
    return x == 0.0 || x == 1.0;
}

size_t points(const double *r)
{
    return ((size_t)1 << (size_t)r[COLLAPSE_AT_LEVEL]) + 1;
}

size_t frame_size(const double *r)
{
    return 2 + 9 * (((size_t)1 << (size_t)r[COLLAPSE_AT_DX_LEVEL]) + 1);
}

static uint32_t fault_of(const double *r)
{
    if (r[COLLAPSE_AT_LEVEL] < 5.0 || r[COLLAPSE_AT_LEVEL] > 16.0)
        return COLLAPSE_REFUSED_LEVEL;
    if (r[COLLAPSE_AT_INTERVAL] * (double)points(r) < 1.0)
        return COLLAPSE_REFUSED_INTERVAL;
    return r[COLLAPSE_AT_DX_LEVEL] > r[COLLAPSE_AT_LEVEL] ? COLLAPSE_REFUSED_DX_LEVEL : 0;
}

/* What begin and advance share: no record, then 5, 6, 7, 11. */
uint32_t refusal_of(struct call c, int begun)
{
    const double *r = c.record.at;
    if (c.record.length < COLLAPSE_RECORD_SIZE || !whole(r[COLLAPSE_AT_LEVEL]) || !whole(r[COLLAPSE_AT_DX_LEVEL]) ||
        !mark(r[COLLAPSE_AT_SKIP]))
        return COLLAPSE_REFUSED_RECORD;
    if (begun && (!whole(r[COLLAPSE_AT_STEPS]) || !mark(r[COLLAPSE_AT_BROKEN])))
        return COLLAPSE_REFUSED_RECORD;
    uint32_t fault = fault_of(r);
    if (fault != 0)
        return fault;
    if (c.state.length < 8 * points(r) || c.work.length < 40 * points(r))
        return COLLAPSE_REFUSED_MEMORY;
    return 0;
}

/* Memories for a level and a dx level with room for so many frames, each so many numbers longer. */
struct call memories(uint32_t level, uint32_t dx_level, size_t room, size_t more)
{
    struct call c = {lend(COLLAPSE_RECORD_SIZE + more), lend(collapse_state_size(level) + more),
                     lend(collapse_work_size(level) + more), lend(room * collapse_frame_size(dx_level) + more)};
    return c;
}

void settings(struct call c, double amplitude, uint32_t level, double interval, uint32_t dx_level, int skip)
{
    double *r = c.record.at;
    r[COLLAPSE_AT_AMPLITUDE] = amplitude;
    r[COLLAPSE_AT_LEVEL] = level;
    r[COLLAPSE_AT_MAX_TIME] = 1.0;
    r[COLLAPSE_AT_INTERVAL] = interval;
    r[COLLAPSE_AT_DX_LEVEL] = dx_level;
    r[COLLAPSE_AT_SKIP] = skip;
}
