#include "deep.h"

const char *const deep_names[DEEP_TABLES] = {"fresh", "half", "pairs", "tree", "wide", "nested", "outside"};
const int deep_sizes[DEEP_TABLES] = {0, 128, 256, 255, 255, 85, 85};

static void (*meet_by)(uint16_t a, uint16_t b, uint16_t touch_a, uint16_t touch_b);

static void pairs(uint16_t from, uint16_t to) {
    for (uint16_t n = from; n + 1 < to; n += 2) meet_by(n, n + 1, n, n + 1);
}

/* n blossoms on 2 n + 1 defects: each takes the one before it and a pair more */
static void nest(uint16_t n, int outside) {
    uint16_t inside = 0, touch = 0;
    pairs(1, 2 * n + 1);
    for (uint16_t k = 0; k < n; k++) {
        uint16_t minus = 1 + 2 * k, plus = 2 + 2 * k;
        meet_by(inside, minus, touch, minus);
        meet_by(inside, plus, touch, plus);
        inside = DEEP_NEST + k;
        if (outside) touch = plus;
    }
}

void deep_table(enum deep which, uint16_t n, void (*make)(uint16_t begin), void (*meet)(uint16_t a, uint16_t b, uint16_t touch_a, uint16_t touch_b)) {
    int tree = which == TREE_TABLE || which == WIDE_TABLE;
    meet_by = meet;
    make(which >= NESTED_TABLE ? DEEP_NEST : which == FRESH_TABLE ? 128 : tree && n < 255 ? 255 : 256);
    if (which == HALF_TABLE || which == PAIRS_TABLE) pairs(0, n);
    if (tree) {
        pairs(1, n);
        for (uint16_t k = 0; k + 2 < n; k += 2) {
            uint16_t at = which == TREE_TABLE ? k : 0;
            meet(at, k + 1, at, k + 1);
        }
    }
    if (which >= NESTED_TABLE) nest(n, which == OUTSIDE_TABLE);
}
