/* Random questions, good and damaged. */
#ifndef DRAW_H
#define DRAW_H

#include "question.h"

struct rng {
    uint64_t state;
};

/* The next number (splitmix64), one below `count`, and true once in `count`
   times. */
uint64_t next_number(struct rng *rng);
uint64_t below(struct rng *rng, uint64_t count);
bool one_in(struct rng *rng, uint64_t count);

/* Appends the written form of a number: groups of seven bits, low group first,
   the top bit set while more follow. */
void write_number(uint8_t *bytes, size_t *length, uint64_t number);

/* Puts a number into so many bytes, at most 8, low byte first. */
void put_low_first(uint8_t *bytes, size_t count, uint64_t number);

/* Makes a question of this call. Most are answered, the others have something
   outside its range. */
void draw_question(struct rng *rng, enum call call, struct question *q);

#endif
