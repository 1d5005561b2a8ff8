/* A second reading of the rules (docs/RULES-IN-WORDS.md): soundness, the numbers given back, and which row of the tables a request takes. Written for
   this comparison, straight from the sentences, in the simplest way and without regard to time. */
#ifndef JUDGE_H
#define JUDGE_H

#include "view.h"

/* 0 and slot 0; or the first of S1 to S8 that the table breaks, and the smallest slot that does */
int broken_rule(const View *t, int *slot);
int present_defects(const View *t);
/* 0, or the first number that applies, in the rules' order for the request's kind; and its side, 0 where it names none */
int refusal_of(const View *t, const Request *r, size_t room, int *side);

typedef enum {
    FREE_FREE,
    FREE_PEER,
    FREE_VIRTUAL,
    FREE_TREE,
    TREE_PEER,
    TREE_VIRTUAL,
    TWO_TREES,
    ONE_TREE,
    VIRTUAL_FREE,
    VIRTUAL_TREE,
    EXPAND_EVEN,
    EXPAND_ODD,
    EXPAND_SAME, /* P and C are one node */
    RESETTING,
    LISTING,
    ROWS
} Row;

extern const char *const row_names[ROWS];

/* the row of a request that is accepted */
Row row_of(const View *t, const Request *r);

/* what a node is, read as 01's tables name it; an empty defect slot reads as the free node that it would become */
typedef enum { NO_PLACE, FREE, WITH_PEER, WITH_VIRTUAL, PLUS, MINUS, INSIDE } Place;
Place place_of(const View *t, uint32_t n);

int inside(const View *t, uint32_t n, uint32_t x);
uint32_t root_of(const View *t, uint32_t n); /* of a tree node of a sound table */

#endif
