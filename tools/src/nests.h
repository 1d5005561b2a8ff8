/* Tables of blossoms in blossoms, as deep as they go, and nests that are bent: for the soundness check and for partners. */
#ifndef NESTS_H
#define NESTS_H

#include "shots.h"

enum { DEEPEST = 85 }; /* on 171 defects */

/* Each blossom takes the one before it and a pair more; touches are any defects inside. 1, or 0 where the port refuses. */
int build_nest(Dice *dice, uint16_t *words, uint32_t depth);
/* The nest with some damage, or none. */
void bend_nest(Shot *shot, uint16_t *words, uint32_t depth);

#endif
