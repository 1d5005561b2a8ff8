#include "nests.h"

#include <string.h>

#include "port.h"

enum { SLOT = 11, RING_NEXT = 3, RING_FIRST = 4, TOUCH = 5, PEER_TOUCH = 6 };

static int meet(uint16_t *words, uint32_t a, uint32_t b, uint32_t touch_a, uint32_t touch_b) {
    uint8_t out[8192];
    size_t written;
    uint16_t side;
    return boltclover_conflict(words, a, b, touch_a, touch_b, 1000 + touch_a, 1000 + touch_b, out, sizeof out, &written, &side) == 0;
}

int build_nest(Dice *dice, uint16_t *words, uint32_t depth) {
    uint32_t begin = 2 * depth + 1 + roll(dice, SLOTS - 3 * depth), inside = 0;
    int fine = boltclover_make(words, begin) == 0;
    for (uint32_t k = 0; k < depth; k++) fine &= meet(words, 1 + 2 * k, 2 + 2 * k, 1 + 2 * k, 2 + 2 * k);
    for (uint32_t k = 0; k < depth; k++) {
        uint32_t minus = 1 + 2 * k, plus = 2 + 2 * k;
        fine &= meet(words, inside, minus, roll(dice, minus), minus);
        fine &= meet(words, inside, plus, roll(dice, minus), plus);
        inside = begin + k;
    }
    return fine;
}

static uint32_t before(const uint16_t *words, uint32_t n) {
    for (uint32_t i = 0; i < SLOTS; i++)
        if (words[SLOT * i + RING_NEXT] == n) return i;
    return NONE;
}

/* n's own touch, and the peer touch of the ring node before it */
static void touch_at(uint16_t *words, uint32_t n, uint32_t touch) {
    uint32_t last = before(words, n);
    if (words[SLOT * n + TOUCH] != NONE) words[SLOT * n + TOUCH] = touch;
    if (last != NONE) words[SLOT * last + PEER_TOUCH] = touch;
}

/* Two nodes change places: marks, parents, siblings and links, and what names them in rings. */
static void exchange(uint16_t *words, uint32_t x, uint32_t y) {
    for (int i = 0; i < SLOT; i++) {
        uint16_t kept = words[SLOT * x + i];
        if (i == 2 || i == RING_FIRST) continue;
        words[SLOT * x + i] = words[SLOT * y + i];
        words[SLOT * y + i] = kept;
    }
    for (uint32_t i = 0; i < SLOTS; i++)
        for (int at = RING_NEXT; at <= RING_FIRST; at++) {
            uint16_t *w = words + SLOT * i + at;
            if (*w == x) *w = y;
            else if (*w == y) *w = x;
        }
}

/* Level j becomes a ring node of level i, which is inside it: a circle of parents that no outer blossom holds. What stood there takes
   j's place; its touch is the innermost defect, and j's a defect of its own ring. Every ring stays one. */
static void make_circle(uint16_t *words, uint32_t begin, uint32_t i, uint32_t j) {
    uint32_t moved = i ? begin + i - 1 : 0;
    exchange(words, moved, begin + j);
    touch_at(words, moved, 0);
    touch_at(words, begin + j, 1 + 2 * j);
}

/* The ring goes on at its second node, and never comes back to the first. */
static void make_loop(uint16_t *words, uint32_t blossom) {
    uint32_t first = words[SLOT * blossom + RING_FIRST], last = before(words, first);
    if (last != NONE) words[SLOT * last + RING_NEXT] = words[SLOT * first + RING_NEXT];
}

void bend_nest(Shot *shot, uint16_t *words, uint32_t depth) {
    Dice *d = &shot->dice;
    static View t;
    read_view(&t, words);
    uint32_t i = roll(d, depth), j = i + roll(d, depth - i), n;
    switch (roll(d, 8)) {
    case 0: break;
    case 1: make_circle(words, t.begin, i, j); break;
    case 2: make_loop(words, t.begin + i); break;
    case 3: /* a touch from one level outside */
        n = t.begin + i;
        words[SLOT * n + TOUCH] = i + 1 < depth ? 3 + 2 * i : 0;
        break;
    case 4: /* any touch, of any node, to any defect */
        n = chance(d, 1, 2) ? t.begin + i : roll(d, 2 * depth + 1);
        words[SLOT * n + TOUCH + roll(d, 2)] = roll(d, 2 * depth + 1);
        break;
    case 5: words[SLOT * (t.begin + j) + 1] = t.begin + i; break; /* a parent below */
    default: damage_table(shot, &t, words);
    }
}
