/* The words of the program, and what they share: each says the same of a bad header. */
#ifndef WORDS_H
#define WORDS_H

#include "whole.h"

#include <stdint.h>

/* Each word over its trace and its other file, which is the result or, of judge, the lines. They give the status, 0 where
 * all went well, or end the program with status 1. */
int move_up(struct named trace, struct named out);
int move_back(struct named trace, struct named out);
int salvage_trace(struct named trace, struct named out);
int judge_lines(struct named trace, struct named lines);

/* Says what a refusal of the whole trace means to a person, and ends the program; nothing was written. Takes is what the
 * word takes, as 'up takes version 1'. */
__attribute__((noreturn)) void refuse(const char *title, struct whole trace, uint64_t refusal, const char *takes);

#endif
