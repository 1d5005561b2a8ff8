/* Requests made up from a seed. A shot is a run of requests on one table, made by one of several plans. */
#ifndef SHOTS_H
#define SHOTS_H

#include "view.h"

typedef struct {
    uint64_t state;
} Dice;

uint32_t roll(Dice *dice, uint32_t below);       /* 0 to below - 1 */
int chance(Dice *dice, uint32_t in, uint32_t of); /* in of so many */

typedef enum { SHORT, MIXED, NESTED, LONG_TREES, WIDE_TREES, TAKING_APART, FULL, TINY, PLANS } Plan;

extern const char *const plan_names[PLANS];

typedef struct {
    Dice dice;
    Plan plan;
    uint32_t begin, length;
    uint32_t limit;    /* defects named are below it */
    uint32_t reserve;  /* of these, so many are kept for taking a nest apart */
    int target;        /* how deep to nest; in the plans of trees, how many defects to pair first */
    int unwinding;     /* taking the nest apart again; in the plans of trees, a tree grown long enough */
} Shot;

Shot new_shot(uint64_t seed, uint32_t number);

/* A request that suits the plan. Nearly always one that 01 accepts: a plan that is stuck asks for a reset. */
Request next_request(Shot *shot, const View *t);
/* A request that may be bad in any way. */
Request wild_request(Shot *shot, const View *t);
/* Words with some damage, which may leave the table sound. */
void damage_table(Shot *shot, const View *t, uint16_t *words);
/* A tape with some damage, or none: cut short, or a record of another kind or length, or another bit. */
/* A tape of good records with some of them padded, in less than twice the bytes; gives how many. */
size_t pad_tape(Dice *dice, uint8_t *to, const uint8_t *tape, size_t length);
void damage_tape(Dice *dice, uint8_t *tape, size_t *length);

int nesting_of(const View *t, uint32_t n); /* 0 for a defect */

#endif
