/* What the fault tests of the library share. */
#ifndef FAULTS_CALLS_H
#define FAULTS_CALLS_H

#include "collapse.h"

extern uint64_t seed;
extern unsigned long calls, answers[COLLAPSE_SPENT + 1];

struct memory {
    double *at;
    size_t length;
};

struct call {
    struct memory record, state, work, frames;
};

void count(uint32_t answer);
size_t below(size_t bound);
struct memory lend(size_t length);
struct memory copy_of(struct memory m);
int same(struct memory a, struct memory b, size_t from);
double any_float(void);
void fill(struct memory m);
struct call copies(struct call c);
void give_back(struct call c);
uint32_t begin(struct call c);
uint32_t advance(struct call c, uint32_t budget);
void object(const char *what, struct call c, uint32_t budget, uint32_t answer);
size_t points(const double *r);
size_t frame_size(const double *r);
uint32_t refusal_of(struct call c, int begun);
struct call memories(uint32_t level, uint32_t dx_level, size_t room, size_t more);
void settings(struct call c, double amplitude, uint32_t level, double interval, uint32_t dx_level, int skip);

/* search.c: short memories for a search, and one of forged settings and ends. */
void search_too_short(uint32_t level);
void search_forged(uint32_t level, int all);

/* spell.c: orders cut and room short at every length, and so many damaged orders and random bytes. */
void spell_lengths(void);
void spell_damaged(size_t rounds);

#endif
