/* figures.h: the parts of the figures, each printed under its name. */
#ifndef FIGURES_H
#define FIGURES_H

#include "house.h"

/* places.c */
void depth_figures(void);
void capacity_figures(void);
void quota_figures(void);

/* rates.c */
void shares_figures(void);
void ahead_figures(void);
void alone_figures(void);
void parts_figures(void);
void credit_figures(void);
void overbooked_figures(void);
void limit_figures(void);
void rules_figures(void);
void worth_figures(void);
void costs_figures(void);

/* arrays.c */
void arrays_figures(void);

/* duties.c */
void clock_figures(void);
void ticks_figures(void);
void batch_figures(void);
void withdrawn_figures(void);
void gates_figures(void);
void refusals_figures(void);
void reopen_figures(void);

/* A quota, or that there is none, right-aligned. */
void print_quota(int wide, uint64_t quota);

/* Nanoseconds as milliseconds, to the tenth, right-aligned. */
void print_ms(uint64_t nanoseconds);

/* The answer of a call, on its line. */
void print_answer(const char *what, sgq_answer answer);

#endif
