#include "shots.h"

#include "judge.h"

const char *const plan_names[PLANS] = {"short", "mixed", "nested", "long trees", "wide trees", "taking apart", "full table", "tiny"};

/* ---- dice */

static uint64_t next_bits(Dice *dice) { /* splitmix64 */
    uint64_t z = dice->state += 0x9e3779b97f4a7c15u;
    z = (z ^ z >> 30) * 0xbf58476d1ce4e5b9u;
    z = (z ^ z >> 27) * 0x94d049bb133111ebu;
    return z ^ z >> 31;
}

uint32_t roll(Dice *dice, uint32_t below) { return (next_bits(dice) >> 32) * below >> 32; }
int chance(Dice *dice, uint32_t in, uint32_t of) { return roll(dice, of) < in; }

static uint32_t between(Dice *dice, uint32_t low, uint32_t high) { return low + roll(dice, high - low + 1); }

/* ---- a shot */

Shot new_shot(uint64_t seed, uint32_t number) {
    Shot s = {.dice = {seed * 1000003 + number}};
    next_bits(&s.dice);
    Dice *d = &s.dice;
    static const Plan plans[] = {SHORT, MIXED, MIXED, NESTED, NESTED, LONG_TREES, WIDE_TREES, TAKING_APART, TAKING_APART, FULL, TINY};
    s.plan = plans[roll(d, sizeof plans / sizeof *plans)];
    s.begin = 128, s.length = 300;
    switch (s.plan) {
    case SHORT: s.limit = between(d, 4, 14), s.begin = chance(d, 1, 2) ? 128 : between(d, s.limit, 256); break;
    case MIXED: s.limit = between(d, 20, 120), s.begin = chance(d, 1, 2) ? 128 : between(d, s.limit, 256), s.length = 500; break;
    case NESTED: s.begin = between(d, 100, 170), s.limit = s.begin, s.reserve = between(d, 8, 24), s.target = between(d, 3, 80), s.length = 900; break;
    case LONG_TREES:
    case WIDE_TREES: s.begin = between(d, 128, 256), s.limit = s.begin, s.target = between(d, s.begin / 4, s.begin), s.length = 700; break;
    case TAKING_APART: s.limit = between(d, 9, 40), s.begin = between(d, s.limit, 128), s.length = 600; break;
    case FULL: s.begin = between(d, 230, 256), s.limit = between(d, 8, 60), s.length = 300; break;
    default: s.begin = between(d, 1, 8), s.limit = s.begin, s.length = 120;
    }
    if (number < 256) { /* every begin once, in short shots */
        s.begin = number + 1, s.plan = s.begin < 8 ? TINY : SHORT, s.length = 60, s.reserve = 0;
        s.limit = between(d, s.begin < 4 ? 1 : 4, s.begin < 30 ? s.begin : 30);
    }
    return s;
}

/* ---- what stands in the table */

int nesting_of(const View *t, uint32_t n) {
    if (n >= SLOTS || t->slot[n].ring == NONE) return 0;
    int deepest = 0;
    uint32_t at = t->slot[n].ring;
    do {
        int inner = nesting_of(t, at);
        if (inner > deepest) deepest = inner;
        at = t->slot[at].sibling;
    } while (at != t->slot[n].ring);
    return deepest + 1;
}

static int depth_of(const View *t, uint32_t n) {
    int depth = 0;
    while (t->slot[n].parent != NONE) n = t->slot[n].parent, depth++;
    return depth;
}

/* some node of a place, or NONE; of a tree where root is not NONE, and not `but` */
static uint32_t some(Shot *s, const View *t, Place place, uint32_t root, uint32_t but) {
    uint32_t found = NONE, seen = 0;
    for (uint32_t n = 0; n < SLOTS; n++) {
        if (n < t->begin && t->slot[n].mark == EMPTY) continue;
        if (n == but || place_of(t, n) != place) continue;
        if (root != NONE && root_of(t, n) != root) continue;
        if (roll(&s->dice, ++seen) == 0) found = n;
    }
    return found;
}

/* the lowest defect that was not named yet, or NONE */
static uint32_t unnamed(const View *t, uint32_t limit) {
    for (uint32_t n = 0; n < limit && n < t->begin; n++)
        if (t->slot[n].mark == EMPTY) return n;
    return NONE;
}

static uint32_t usual_limit(const Shot *s) { return s->unwinding ? s->limit : s->limit - (s->reserve < s->limit ? s->reserve : 0); }

/* a free node: one that is there, or a new one (now and then not the lowest) */
static uint32_t some_free(Shot *s, const View *t, uint32_t but) {
    uint32_t old = some(s, t, FREE, NONE, but);
    uint32_t fresh = unnamed(t, usual_limit(s));
    if (fresh != NONE && chance(&s->dice, 1, 12)) {
        uint32_t other = roll(&s->dice, usual_limit(s));
        if (t->slot[other].mark == EMPTY && other < t->begin) fresh = other;
    }
    if (fresh == but) fresh = NONE;
    if (old == NONE || (fresh != NONE && chance(&s->dice, 1, 2))) return fresh;
    return old;
}

static uint32_t deepest_plus(const View *t, uint32_t root) {
    uint32_t best = NONE;
    int depth = -1;
    for (uint32_t n = 0; n < SLOTS; n++)
        if (!(n < t->begin && t->slot[n].mark == EMPTY) && place_of(t, n) == PLUS && (root == NONE || root_of(t, n) == root) && depth_of(t, n) > depth)
            best = n, depth = depth_of(t, n);
    return best;
}

static uint32_t most_nested(const View *t) {
    uint32_t best = NONE;
    int most = 0;
    for (uint32_t n = t->begin; n < SLOTS; n++) {
        if (t->slot[n].mark == EMPTY || t->slot[n].mark == INNER) continue;
        int nesting = nesting_of(t, n);
        if (nesting > most) best = n, most = nesting;
    }
    return best;
}

static uint32_t touch_of(Shot *s, const View *t, uint32_t n) {
    while (n < SLOTS && t->slot[n].ring != NONE) {
        uint32_t at = t->slot[n].ring;
        for (uint32_t steps = roll(&s->dice, 12); steps > 0; steps--) at = t->slot[at].sibling;
        n = at;
    }
    return n;
}

static uint32_t some_vertex(Shot *s) {
    switch (roll(&s->dice, 20)) {
    case 0: return 0;
    case 1: return NO_VERTEX - 1;
    case 2: return next_bits(&s->dice) % NO_VERTEX;
    case 3: return 65535 + roll(&s->dice, 3);
    default: return roll(&s->dice, 10000);
    }
}

/* ---- requests; kind RESET where a node is missing */

static const Request nothing = {.kind = RESET};

static Request conflict_of(Shot *s, const View *t, uint32_t a, uint32_t b) {
    if (a == NONE || b == NONE || a == b) return nothing;
    if (chance(&s->dice, 1, 2)) {
        uint32_t c = a;
        a = b, b = c;
    }
    return (Request){CONFLICT, a, b, touch_of(s, t, a), touch_of(s, t, b), some_vertex(s), some_vertex(s)};
}

static Request virtual_of(Shot *s, const View *t, uint32_t a) {
    if (a == NONE) return nothing;
    return (Request){VIRTUAL, a, 0, touch_of(s, t, a), 0, some_vertex(s), some_vertex(s)};
}

static uint32_t minus_blossom(Shot *s, const View *t) {
    uint32_t found = NONE, seen = 0;
    for (uint32_t n = t->begin; n < SLOTS; n++)
        if (place_of(t, n) == MINUS && roll(&s->dice, ++seen) == 0) found = n;
    return found;
}

static Request expansion_of(uint32_t n) { return n == NONE ? nothing : (Request){.kind = EXPANSION, .node_1 = n}; }

/* a request of a row, if the table has nodes for it */
static Request of_row(Shot *s, const View *t, Row row) {
    uint32_t a, b;
    switch (row) {
    case FREE_FREE: a = some_free(s, t, NONE), b = some_free(s, t, a); return conflict_of(s, t, a, b);
    case FREE_PEER: a = some_free(s, t, NONE), b = some(s, t, WITH_PEER, NONE, NONE); return conflict_of(s, t, a, b);
    case FREE_VIRTUAL: a = some_free(s, t, NONE), b = some(s, t, WITH_VIRTUAL, NONE, NONE); return conflict_of(s, t, a, b);
    case FREE_TREE: a = some_free(s, t, NONE), b = some(s, t, PLUS, NONE, NONE); return conflict_of(s, t, a, b);
    case TREE_PEER:
        a = s->plan == LONG_TREES && chance(&s->dice, 4, 5) ? deepest_plus(t, NONE) : some(s, t, PLUS, NONE, NONE);
        if (s->plan == WIDE_TREES && a != NONE && chance(&s->dice, 1, 2)) a = root_of(t, a);
        b = some(s, t, WITH_PEER, NONE, NONE);
        return conflict_of(s, t, a, b);
    case TREE_VIRTUAL: a = some(s, t, PLUS, NONE, NONE), b = some(s, t, WITH_VIRTUAL, NONE, NONE); return conflict_of(s, t, a, b);
    case TWO_TREES:
        a = some(s, t, PLUS, NONE, NONE), b = some(s, t, PLUS, NONE, a);
        return a == NONE || b == NONE || root_of(t, a) == root_of(t, b) ? nothing : conflict_of(s, t, a, b);
    case ONE_TREE:
        a = some(s, t, PLUS, NONE, NONE);
        if (a == NONE) return nothing;
        if (chance(&s->dice, 1, 3)) a = deepest_plus(t, root_of(t, a));
        b = some(s, t, PLUS, root_of(t, a), a);
        return conflict_of(s, t, a, b);
    case VIRTUAL_FREE: return virtual_of(s, t, some_free(s, t, NONE));
    case VIRTUAL_TREE: return virtual_of(s, t, some(s, t, PLUS, NONE, NONE));
    case EXPAND_EVEN: return expansion_of(minus_blossom(s, t));
    case LISTING: return (Request){.kind = LIST};
    default: return nothing;
    }
}

/* how often each row is tried, by plan */
static const uint8_t weights[PLANS][ROWS] = {
    /*               ff fp fv ft tp tv 2t 1t vf vt ex  .  . re li */
    [SHORT] =        {6, 6, 2, 3, 6, 2, 5, 6, 2, 2, 9, 0, 0, 1, 0},
    [MIXED] =        {8, 5, 2, 2, 9, 2, 8, 5, 2, 2, 9, 0, 0, 0, 0},
    [NESTED] =       {8, 6, 2, 2, 8, 1, 1, 8, 1, 1, 9, 0, 0, 0, 0},
    [LONG_TREES] =   {2, 1, 0, 0, 30, 0, 0, 0, 0, 0, 2, 0, 0, 0, 0},
    [WIDE_TREES] =   {2, 1, 0, 0, 30, 0, 0, 0, 0, 0, 2, 0, 0, 0, 0},
    [TAKING_APART] = {6, 5, 1, 1, 8, 1, 1, 9, 1, 1, 30, 0, 0, 0, 0},
    [FULL] =         {6, 5, 1, 1, 6, 1, 1, 9, 1, 1, 9, 0, 0, 0, 0},
    [TINY] =         {6, 6, 3, 4, 4, 3, 3, 6, 3, 3, 4, 0, 0, 2, 2},
};

static Request by_weight(Shot *s, const View *t, const uint8_t *weight) {
    uint32_t total = 0;
    for (int i = 0; i < ROWS; i++) total += weight[i];
    for (int tries = 0; tries < 60; tries++) {
        uint32_t at = roll(&s->dice, total);
        int row = 0;
        while (at >= weight[row]) at -= weight[row++];
        Request r = of_row(s, t, row);
        if (r.kind != RESET || row == RESETTING) return r;
    }
    return nothing;
}

/* two defects that were not named yet, as a pair to be */
static Request fresh_pair(Shot *s, const View *t) {
    uint32_t a = unnamed(t, usual_limit(s)), b = NONE;
    for (uint32_t n = a + 1; a != NONE && b == NONE && n < usual_limit(s); n++)
        if (t->slot[n].mark == EMPTY) b = n;
    return conflict_of(s, t, a, b);
}

/* One blossom around another: wherever the most nested one stands, it is brought into a ring. */
static Request nest(Shot *s, const View *t) {
    uint32_t core = most_nested(t);
    if (t->begin + t->blossoms == 256 || (core != NONE && nesting_of(t, core) >= s->target)) return nothing;
    if (core == NONE) {
        Request r = of_row(s, t, ONE_TREE);
        if (r.kind == RESET) r = of_row(s, t, FREE_PEER);
        return r.kind != RESET ? r : fresh_pair(s, t);
    }
    uint32_t pair = some(s, t, WITH_PEER, NONE, core), lone = some_free(s, t, core), root, other;
    switch (place_of(t, core)) {
    case FREE: return pair != NONE ? conflict_of(s, t, core, pair) : fresh_pair(s, t);
    case WITH_PEER: return conflict_of(s, t, lone, t->slot[core].sibling);
    case WITH_VIRTUAL: return conflict_of(s, t, lone, core);
    case MINUS: return conflict_of(s, t, t->slot[core].parent, t->slot[core].child);
    case PLUS:
        root = root_of(t, core), other = some(s, t, PLUS, root, core);
        if (pair != NONE && chance(&s->dice, 1, 4)) return conflict_of(s, t, some(s, t, PLUS, root, NONE), pair);
        return conflict_of(s, t, core, other);
    default: return nothing;
    }
}

/* The most nested blossom is brought below a + node and taken apart, and so the next one. */
static Request unwind(Shot *s, const View *t) {
    uint32_t core = most_nested(t);
    if (core == NONE) return nothing;
    uint32_t plus = some(s, t, PLUS, NONE, NONE), lone = some_free(s, t, core);
    switch (place_of(t, core)) {
    case MINUS: return expansion_of(core);
    case WITH_PEER: return conflict_of(s, t, plus != NONE && chance(&s->dice, 2, 3) ? plus : lone, core);
    case WITH_VIRTUAL: return conflict_of(s, t, lone != NONE ? lone : plus, core);
    case FREE: return lone != NONE ? conflict_of(s, t, lone, core) : plus != NONE ? conflict_of(s, t, plus, core) : virtual_of(s, t, core);
    case PLUS:
        if (lone != NONE && chance(&s->dice, 1, 2)) return conflict_of(s, t, lone, some(s, t, PLUS, root_of(t, core), NONE));
        return virtual_of(s, t, some(s, t, PLUS, root_of(t, core), NONE));
    default: return nothing;
    }
}

static uint32_t tree_nodes(const View *t) {
    uint32_t count = 0;
    for (uint32_t n = 0; n < SLOTS; n++) count += place_of(t, n) == PLUS || place_of(t, n) == MINUS;
    return count;
}

Request next_request(Shot *s, const View *t) {
    Request r = nothing;
    if (chance(&s->dice, 1, 60)) return (Request){.kind = LIST};
    if (s->plan == NESTED && !chance(&s->dice, 1, 50)) {
        if (s->unwinding && most_nested(t) == NONE) s->unwinding = 0;
        r = s->unwinding ? unwind(s, t) : nest(s, t);
        if (r.kind == RESET && !s->unwinding) s->unwinding = 1, r = unwind(s, t);
    }
    if (s->plan == LONG_TREES || s->plan == WIDE_TREES) {
        /* grown until nothing is left to hang or by chance, then closed, merged, augmented and taken apart as in a mixed shot */
        static const uint8_t first_pairs[ROWS] = {[FREE_FREE] = 1};
        if ((int)t->defects + 2 <= s->target && tree_nodes(t) == 0) r = by_weight(s, t, first_pairs);
        else if (s->unwinding || chance(&s->dice, 1, 120)) r = by_weight(s, t, weights[MIXED]), s->unwinding = !chance(&s->dice, 1, 40);
    }
    if (r.kind == RESET) r = by_weight(s, t, weights[s->plan]);
    if (r.kind == RESET) r = by_weight(s, t, weights[MIXED]), s->unwinding = s->plan == NESTED ? s->unwinding : !s->unwinding;
    if (r.kind == RESET) s->unwinding = 0;
    return r;
}

/* ---- bad requests */

static uint32_t wild_node(Shot *s, const View *t) {
    switch (roll(&s->dice, 12)) {
    case 0: return 256 + roll(&s->dice, 3);
    case 1: return NONE;
    case 2: return roll(&s->dice, 65536);
    case 3: return t->begin + t->blossoms; /* the first slot not given out */
    case 4: return t->begin + (t->blossoms ? roll(&s->dice, t->blossoms) : 0);
    case 5: return some(s, t, INSIDE, NONE, NONE);
    case 6: return some(s, t, MINUS, NONE, NONE);
    case 7: return some(s, t, WITH_PEER, NONE, NONE);
    case 8: return some(s, t, PLUS, NONE, NONE);
    default: return roll(&s->dice, t->defects + 2);
    }
}

Request wild_request(Shot *s, const View *t) {
    Request r = next_request(s, t);
    if (chance(&s->dice, 1, 6)) {
        r = (Request){CONFLICT + roll(&s->dice, 3), wild_node(s, t), wild_node(s, t), wild_node(s, t), wild_node(s, t), some_vertex(s), some_vertex(s)};
        if (r.node_1 < SLOTS && chance(&s->dice, 2, 3)) r.touch_1 = touch_of(s, t, r.node_1);
        if (r.node_2 < SLOTS && chance(&s->dice, 2, 3)) r.touch_2 = touch_of(s, t, r.node_2);
        return r;
    }
    if (r.kind == RESET || r.kind == LIST) r = conflict_of(s, t, some(s, t, PLUS, NONE, NONE), some(s, t, PLUS, NONE, NONE));
    if (r.kind == RESET) r = (Request){.kind = EXPANSION, .node_1 = wild_node(s, t)};
    for (int faults = chance(&s->dice, 1, 4) ? 2 : 1; faults > 0; faults--) {
        switch (roll(&s->dice, 8)) {
        case 0: r.node_1 = wild_node(s, t); break;
        case 1: r.node_2 = wild_node(s, t); break;
        case 2: r.node_2 = r.node_1, r.touch_2 = r.touch_1; break;
        case 3: r.touch_1 = wild_node(s, t); break;
        case 4: r.touch_2 = wild_node(s, t); break;
        case 5: r.vertex_1 = NO_VERTEX; break;
        case 6: r.vertex_2 = NO_VERTEX; break;
        default:
            r.node_1 = wild_node(s, t);
            if (r.node_1 < SLOTS) r.touch_1 = touch_of(s, t, r.node_1);
        }
    }
    return r;
}

/* ---- damage */

static void set_wide(uint16_t *words, uint32_t value) { words[0] = value & 65535, words[1] = value >> 16; }

static uint16_t exchanged(uint16_t n, uint32_t a, uint32_t b) { return n == a ? b : n == b ? a : n; }

/* Two slots exchanged, and their numbers wherever they stand. Two defects: the table stays sound. Two blossoms: unless one is
   inside the other. */
static void exchange(uint16_t *words, uint32_t a, uint32_t b) {
    for (int i = 0; i < 11; i++) {
        uint16_t word = words[11 * a + i];
        words[11 * a + i] = words[11 * b + i], words[11 * b + i] = word;
    }
    for (int n = 0; n < SLOTS; n++)
        for (int i = 1; i < 7; i++) words[11 * n + i] = exchanged(words[11 * n + i], a, b);
}

static void damage_order(Shot *s, const View *t, uint16_t *words) {
    Dice *d = &s->dice;
    if (t->blossoms > 1 && chance(d, 1, 2)) {
        exchange(words, t->begin + roll(d, t->blossoms), t->begin + roll(d, t->blossoms));
    } else if (t->defects > 1) {
        exchange(words, roll(d, t->defects), roll(d, t->defects));
    }
}

/* a list of children that leaves one out, has one of another node, or goes round */
static void damage_children(Shot *s, const View *t, uint16_t *words) {
    uint32_t child = some(s, t, MINUS, NONE, NONE), next = child == NONE ? NONE : t->slot[child].sibling;
    if (child == NONE) return;
    if (next != NONE && chance(&s->dice, 1, 2)) words[11 * child + 3] = t->slot[next].sibling;
    else words[11 * child + 3] = chance(&s->dice, 1, 2) ? t->slot[t->slot[child].parent].child : some(s, t, MINUS, NONE, child);
}

/* a root hung below its own grandchild's place: a tree that has no root */
static void damage_root(const View *t, uint16_t *words) {
    for (uint32_t n = 0; n < SLOTS; n++) {
        uint32_t root = t->slot[n].parent, leaf = t->slot[n].child;
        if (t->slot[n].mark != SHRINK || t->slot[root].parent != NONE || t->slot[leaf].child != NONE) continue;
        words[11 * n + 2] = root, words[11 * root + 1] = n;
        for (int i = 5; i < 11; i++) words[11 * root + i] = words[11 * leaf + i], words[11 * leaf + i] = NONE;
        words[11 * leaf + 1] = NONE;
        return;
    }
}

void damage_table(Shot *s, const View *t, uint16_t *words) {
    Dice *d = &s->dice;
    switch (roll(d, 8)) {
    case 0: damage_order(s, t, words); return;
    case 1: damage_children(s, t, words); return;
    case 2: damage_root(t, words); return;
    default: break;
    }
    for (int faults = chance(d, 1, 4) ? 2 : 1; faults > 0; faults--) {
        uint32_t n = chance(d, 4, 5) && t->defects ? roll(d, t->defects) : roll(d, SLOTS);
        if (t->blossoms && chance(d, 1, 3)) n = t->begin + roll(d, t->blossoms);
        uint16_t *w = words + 11 * n;
        switch (roll(d, 14)) {
        case 0: words[roll(d, WORDS)] = roll(d, 65536); break;
        case 1: w[1 + roll(d, 4)] = roll(d, SLOTS); break;
        case 2: w[1 + roll(d, 4)] = NONE; break;
        case 3: w[0] = roll(d, 6); break;
        case 4: words[2816 + roll(d, 3)] += chance(d, 1, 2) ? 1 : -1; break;
        case 5: words[2816] = roll(d, 300); break;
        case 6: w[5 + roll(d, 2)] = roll(d, t->defects + 1); break;
        case 7: w[5 + roll(d, 2)] = NONE; break;
        case 8: set_wide(w + 7 + 2 * roll(d, 2), NO_VERTEX); break;
        case 9: { /* a through of a pair, in both halves: the table may stay sound */
            uint32_t v = some_vertex(s);
            set_wide(w + 7, v);
            if (t->slot[n].sibling < SLOTS) set_wide(words + 11 * t->slot[n].sibling + 9, v);
            break;
        }
        case 10: { /* a touch moved inside its node, and with it the other half's */
            uint32_t touch = touch_of(s, t, n);
            w[5] = touch;
            if (t->slot[n].mark == STAY && t->slot[n].sibling < SLOTS) words[11 * t->slot[n].sibling + 6] = touch;
            break;
        }
        case 11: { /* another first ring node */
            uint32_t ring = t->slot[n].ring;
            if (ring < SLOTS) w[4] = t->slot[ring].sibling;
            break;
        }
        case 12: { /* a whole slot from elsewhere */
            uint32_t from = roll(d, SLOTS);
            for (int i = 0; i < 11; i++) w[i] = words[11 * from + i];
            break;
        }
        default: { /* an outer node's children in another order */
            uint32_t first = t->slot[n].mark == GROW ? t->slot[n].child : NONE;
            if (first >= SLOTS || t->slot[first].sibling >= SLOTS) break;
            uint32_t second = t->slot[first].sibling;
            w[2] = second;
            words[11 * first + 3] = t->slot[second].sibling;
            words[11 * second + 3] = first;
        }
        }
    }
}

size_t pad_tape(Dice *dice, uint8_t *to, const uint8_t *tape, size_t length) {
    uint8_t *end = to;
    for (size_t at = 0; at < length;) {
        Request r;
        int size = read_request(&r, tape + at, length - at);
        if (!size) break;
        end += chance(dice, 1, 2) ? write_padded(end, &r) : write_request(end, &r);
        at += size;
    }
    return end - to;
}

/* Something else than zero in the padding of the first padded record from a place on. */
static void damage_padding(Dice *dice, uint8_t *tape, size_t length, size_t at) {
    uint8_t exact[LONGEST_REQUEST];
    for (Request r; at < length;) {
        size_t size = read_request(&r, tape + at, length - at), least = size ? write_request(exact, &r) : 0;
        if (!size) return;
        if (size > least) {
            tape[at + least + roll(dice, size - least)] = 1 + roll(dice, 255);
            return;
        }
        at += size;
    }
}

void damage_tape(Dice *dice, uint8_t *tape, size_t *length) {
    if (*length < 8 || chance(dice, 1, 3)) return;
    size_t at = 0, records = roll(dice, 40);
    for (Request r; records > 0 && at + 8 < *length; records--) {
        int size = read_request(&r, tape + at, *length - at);
        if (!size || at + size >= *length) break;
        at += size;
    }
    static const uint16_t kinds[] = {0, 6, 15, 16, 17, 18, 19, 20, 21, 22, 255, 256, 65535};
    switch (roll(dice, 6)) {
    case 0: *length -= 1 + roll(dice, 7); break;                                    /* cut short */
    case 1: tape[at + 2] = kinds[roll(dice, 13)]; break;                            /* other kind */
    case 2: tape[at + 3] = roll(dice, 256); break;                                  /* other kind, high byte */
    case 3: tape[at] = roll(dice, 24); break;                                       /* other length */
    case 4: damage_padding(dice, tape, *length, at); break;
    default: tape[at + roll(dice, 8 < *length - at ? 8 : 1)] ^= 1u << roll(dice, 8); /* one bit anywhere */
    }
}
