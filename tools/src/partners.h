/* The question for a defect's partner, held to what the listing of the same table says. */
#ifndef PARTNERS_H
#define PARTNERS_H

#include "shots.h"
#include "view.h"

/* The questions, and their answers by kind. */
typedef struct {
    unsigned long asked, paired, virtually, alone, refused;
} Partners;

enum { ALL_RIGHT = -1, TABLE_CHANGED = -2, BAD_LISTING = -3, NEST_REFUSED = -4 };

/* Asks the library for every present defect of a sound table, and of any table for the first blossom slot, for 256 and for another
   number. The first that is answered otherwise than it should be; or ALL_RIGHT; or TABLE_CHANGED, where the questions changed it; or
   BAD_LISTING, where the listing names a number that is no present defect, or one twice. */
long wrong_partner(const uint16_t *words, const View *t, uint32_t another, Partners *counts);

/* The same of a nest (nests.h) whose outermost blossom is matched to a virtual vertex, at some of its defects, one after another. */
long wrong_in_nest(Dice dice, const uint16_t *nest, uint32_t depth, Partners *counts);

#endif
