/* The tables on which calls take the most stack, or the longest: by the conflicts that make them. */
#ifndef DEEP_H
#define DEEP_H

#include <stdint.h>

enum deep { FRESH_TABLE, HALF_TABLE, PAIRS_TABLE, TREE_TABLE, WIDE_TABLE, NESTED_TABLE, OUTSIDE_TABLE, DEEP_TABLES };

/* begin of a table of blossoms, and so the number of its innermost */
#define DEEP_NEST 171

/* fresh; half and pairs: n nodes in pairs; tree: n nodes, one path; wide: n nodes, every pair at the root; nested: n blossoms, each in
   the next, every touch the deepest defect; outside: the same, every touch a defect of the outermost ring. The largest n of each, but
   for half, stands in deep_sizes. */
extern const char *const deep_names[DEEP_TABLES];
extern const int deep_sizes[DEEP_TABLES];

/* Calls `make` with the table's begin, and then `meet` for each conflict. */
void deep_table(enum deep which, uint16_t n, void (*make)(uint16_t begin), void (*meet)(uint16_t a, uint16_t b, uint16_t touch_a, uint16_t touch_b));

#endif
