#include "judge.h"

const char *const row_names[ROWS] = {
    "conflict: free, free", "conflict: free, matched to peer", "conflict: free, matched to virtual", "conflict: free, tree +",
    "conflict: tree +, matched to peer", "conflict: tree +, matched to virtual", "conflict: two trees", "conflict: one tree",
    "virtual conflict: free", "virtual conflict: tree +", "expansion: d even", "expansion: d odd", "expansion: P is C", "reset", "list",
};

/* ---- slots */

static const Slot new_node = {GROW, NONE, NONE, NONE, NONE, {NONE, NONE, NO_VERTEX, NO_VERTEX}};

static int present(const View *t, uint32_t n) { return n < SLOTS && t->slot[n].mark != EMPTY; }
static int outer(const Slot *s) { return s->mark == STAY || s->mark == GROW || s->mark == SHRINK; }
static int is_defect(const View *t, uint32_t n) { return n < t->begin && present(t, n); }
static int is_blossom(const View *t, uint32_t n) { return n >= t->begin && present(t, n); }
static int lone(const Slot *s) { return s->parent == NONE && s->child == NONE; }
static int empty_link(Link l) { return l.touch == NONE && l.peer_touch == NONE && l.through == NO_VERTEX && l.peer_through == NO_VERTEX; }
static int full_link(Link l) { return l.touch != NONE && l.peer_touch != NONE && l.through != NO_VERTEX && l.peer_through != NO_VERTEX; }
static int mirrored(Link a, Link b) {
    return a.touch == b.peer_touch && a.peer_touch == b.touch && a.through == b.peer_through && a.peer_through == b.through;
}

/* "A node is inside X if it is X, or climbing through the parents of inner nodes, at most 256 steps, reaches X." */
int inside(const View *t, uint32_t n, uint32_t x) {
    for (int steps = 0; steps <= 256; steps++) {
        if (n == x) return 1;
        if (n >= SLOTS || t->slot[n].mark != INNER) return 0;
        n = t->slot[n].parent;
    }
    return 0;
}

static int defect_inside(const View *t, uint32_t touch, uint32_t n) { return is_defect(t, touch) && inside(t, touch, n); }

/* ---- soundness: each rule gives the smallest slot that breaks it, or NOWHERE */

enum { NOWHERE = -1 };

static int s1(const View *t) {
    if (t->begin < 1 || t->begin > 256 || t->defects > t->begin || t->begin + t->blossoms > 256) return 0;
    for (uint32_t i = 0; i < SLOTS; i++) {
        const Slot *s = &t->slot[i];
        int past = i < t->begin ? i >= t->defects : i >= t->begin + t->blossoms;
        if (s->mark > SHRINK || (past && s->mark != EMPTY)) return i;
        if (s->mark == EMPTY && !(lone(s) && s->sibling == NONE && s->ring == NONE && empty_link(s->link))) return i;
        if (s->ring != NONE && !is_blossom(t, i)) return i;
    }
    return NOWHERE;
}

static int names_present(const View *t, uint32_t n) { return n == NONE || present(t, n); }

static int s2(const View *t) {
    for (int i = 0; i < SLOTS; i++) {
        const Slot *s = &t->slot[i];
        if (!names_present(t, s->parent) || !names_present(t, s->child) || !names_present(t, s->sibling) || !names_present(t, s->ring)) return i;
    }
    return NOWHERE;
}

/* Stay, alone, with touch and both throughs: what both halves of a pair and a node matched to a virtual vertex have */
static int half_matched(const Slot *s) {
    return s->mark == STAY && lone(s) && s->link.touch != NONE && s->link.through != NO_VERTEX && s->link.peer_through != NO_VERTEX;
}

static int s3(const View *t) {
    for (uint32_t i = 0; i < SLOTS; i++) {
        const Slot *s = &t->slot[i];
        if (!outer(s) || !lone(s)) continue;
        if (s->mark == GROW && s->sibling == NONE && empty_link(s->link)) continue;
        if (!half_matched(s)) return i;
        if (s->sibling == NONE) {
            if (s->link.peer_touch != NONE) return i;
        } else {
            const Slot *peer = &t->slot[s->sibling];
            if (s->sibling == i || !half_matched(peer) || peer->sibling != i || !mirrored(s->link, peer->link) || s->link.peer_touch == NONE) return i;
        }
    }
    return NOWHERE;
}

static int s4(const View *t) {
    for (int i = 0; i < SLOTS; i++) {
        const Slot *s = &t->slot[i];
        if (!outer(s) || lone(s)) continue;
        int parent = s->parent == NONE ? EMPTY : (int)t->slot[s->parent].mark;
        int one_child = s->child != NONE && t->slot[s->child].sibling == NONE;
        int root = s->mark == GROW && s->child != NONE && s->parent == NONE && s->sibling == NONE && empty_link(s->link);
        int minus = s->mark == SHRINK && full_link(s->link) && parent == GROW && one_child;
        int plus = s->mark == GROW && full_link(s->link) && s->sibling == NONE && parent == SHRINK;
        if (!root && !minus && !plus) return i;
    }
    return NOWHERE;
}

/* the nodes from first along siblings, until `stop`; 0 if one comes twice or the way does not end there */
static int walked(const View *t, uint32_t first, uint32_t stop, unsigned char *seen) {
    for (int i = 0; i < SLOTS; i++) seen[i] = 0;
    uint32_t n = first;
    do {
        if (n >= SLOTS || seen[n]) return 0;
        seen[n] = 1;
        n = t->slot[n].sibling;
    } while (n != stop);
    return 1;
}

static int s5(const View *t) {
    unsigned char seen[SLOTS];
    for (uint32_t i = 0; i < SLOTS; i++) {
        if (!outer(&t->slot[i])) continue;
        if (t->slot[i].child == NONE) {
            for (int j = 0; j < SLOTS; j++) seen[j] = 0;
        } else if (!walked(t, t->slot[i].child, NONE, seen)) {
            return i;
        }
        for (int j = 0; j < SLOTS; j++)
            if (seen[j] != (outer(&t->slot[j]) && t->slot[j].parent == i)) return i;
    }
    return NOWHERE;
}

static int s6(const View *t) {
    unsigned char seen[SLOTS];
    for (uint32_t i = 0; i < SLOTS; i++) {
        const Slot *s = &t->slot[i];
        if (s->mark == INNER && (!full_link(s->link) || s->child != NONE)) return i;
        if (!is_blossom(t, i)) continue;
        if (s->ring == NONE || !walked(t, s->ring, s->ring, seen)) return i;
        int count = 0;
        for (int j = 0; j < SLOTS; j++) {
            if (seen[j] != (t->slot[j].mark == INNER && t->slot[j].parent == i)) return i;
            count += seen[j];
        }
        if (count < 3 || count % 2 == 0) return i;
    }
    return NOWHERE;
}

static int s7(const View *t) {
    for (uint32_t i = 0; i < SLOTS; i++) {
        const Slot *s = &t->slot[i];
        if (s->mark == INNER && (!is_blossom(t, s->parent) || s->parent <= i)) return i;
        if (!outer(s)) continue;
        uint32_t n = i;
        int steps = 0;
        while (t->slot[n].parent != NONE && steps <= 256) n = t->slot[n].parent, steps++;
        if (steps > 256) return i;
    }
    return NOWHERE;
}

static int s8(const View *t) {
    for (uint32_t i = 0; i < SLOTS; i++) {
        const Slot *s = &t->slot[i];
        if (s->mark == EMPTY) continue;
        if (s->link.touch != NONE && !defect_inside(t, s->link.touch, i)) return i;
        uint32_t other = s->mark == INNER || lone(s) ? s->sibling : s->parent;
        if (s->link.peer_touch != NONE && !defect_inside(t, s->link.peer_touch, other)) return i;
    }
    return NOWHERE;
}

int broken_rule(const View *t, int *slot) {
    int (*const rules[])(const View *) = {s1, s2, s3, s4, s5, s6, s7, s8};
    for (int i = 0; i < 8; i++) {
        *slot = rules[i](t);
        if (*slot != NOWHERE) return i + 1;
    }
    *slot = 0;
    return 0;
}

static int is_sound(const View *t) {
    int slot;
    return broken_rule(t, &slot) == 0;
}

/* ---- the numbers given back */

static const Slot *seen_as(const View *t, uint32_t n) {
    return n < t->begin && t->slot[n].mark == EMPTY ? &new_node : &t->slot[n];
}

Place place_of(const View *t, uint32_t n) {
    if (n >= SLOTS) return NO_PLACE;
    const Slot *s = seen_as(t, n);
    if (s->mark == EMPTY) return NO_PLACE;
    if (s->mark == INNER) return INSIDE;
    if (s->mark == SHRINK) return MINUS;
    if (!lone(s)) return PLUS;
    if (s->mark == GROW) return FREE;
    return s->sibling == NONE ? WITH_VIRTUAL : WITH_PEER;
}

uint32_t root_of(const View *t, uint32_t n) {
    while (t->slot[n].parent != NONE) n = t->slot[n].parent;
    return n;
}

static int touch_outside(const View *t, uint32_t n, uint32_t touch) {
    int is_new = n < t->begin && t->slot[n].mark == EMPTY;
    return is_new ? touch != n : !defect_inside(t, touch, n);
}

int present_defects(const View *t) {
    int count = 0;
    for (uint32_t i = 0; i < SLOTS; i++) count += is_defect(t, i);
    return count;
}

static int grows(Place p) { return p == FREE || p == PLUS; }

/* "When both sides fail the same check, side 1 is named." */
static int named(int first_fails, int second_fails) { return first_fails ? 1 : second_fails ? 2 : 0; }

int refusal_of(const View *t, const Request *r, size_t room, int *side) {
    *side = 0;
    if (!is_sound(t)) return 1;
    if (r->kind == RESET) return 0;
    if (r->kind == LIST) return room < 16 * (size_t)present_defects(t) ? 10 : 0;
    if (room < 4096) return 9;
    Place a = place_of(t, r->node_1);
    if (r->kind == EXPANSION) return r->node_1 < SLOTS && r->node_1 >= t->begin && a == MINUS ? 0 : 11;
    if (r->kind == VIRTUAL) {
        *side = 1;
        if (a == NO_PLACE || r->vertex_1 == NO_VERTEX || r->vertex_2 == NO_VERTEX) return 3;
        if (a == INSIDE) return 4;
        if (touch_outside(t, r->node_1, r->touch_1)) return 6;
        *side = 0;
        return grows(a) ? 0 : 7;
    }
    Place b = place_of(t, r->node_2);
    if ((*side = named(a == NO_PLACE || r->vertex_1 == NO_VERTEX, b == NO_PLACE || r->vertex_2 == NO_VERTEX))) return 3;
    if ((*side = named(a == INSIDE, b == INSIDE))) return 4;
    if (r->node_1 == r->node_2) return 5;
    if ((*side = named(touch_outside(t, r->node_1, r->touch_1), touch_outside(t, r->node_2, r->touch_2)))) return 6;
    if (a == MINUS || b == MINUS || (!grows(a) && !grows(b))) return 7;
    if (a == PLUS && b == PLUS && root_of(t, r->node_1) == root_of(t, r->node_2) && t->begin + t->blossoms == 256) return 8;
    return 0;
}

/* ---- rows */

/* the ring node of the blossom that holds the defect */
static uint32_t ring_node(const View *t, uint32_t blossom, uint32_t defect) {
    while (t->slot[defect].parent != blossom) defect = t->slot[defect].parent;
    return defect;
}

static Row expansion_row(const View *t, uint32_t blossom) {
    uint32_t p = ring_node(t, blossom, t->slot[blossom].link.touch);
    uint32_t c = ring_node(t, blossom, t->slot[t->slot[blossom].child].link.peer_touch);
    int d = 0;
    if (p == c) return EXPAND_SAME;
    for (; p != c; p = t->slot[p].sibling) d++;
    return d % 2 ? EXPAND_ODD : EXPAND_EVEN;
}

Row row_of(const View *t, const Request *r) {
    if (r->kind == RESET) return RESETTING;
    if (r->kind == LIST) return LISTING;
    if (r->kind == EXPANSION) return expansion_row(t, r->node_1);
    Place a = place_of(t, r->node_1), b = r->kind == CONFLICT ? place_of(t, r->node_2) : NO_PLACE;
    if (r->kind == VIRTUAL) return a == FREE ? VIRTUAL_FREE : VIRTUAL_TREE;
    if (a == PLUS && b == PLUS) return root_of(t, r->node_1) == root_of(t, r->node_2) ? ONE_TREE : TWO_TREES;
    if (a == FREE && b == FREE) return FREE_FREE;
    Place other = a == FREE ? b : b == FREE ? a : a == PLUS ? b : a;
    int with_free = a == FREE || b == FREE;
    if (other == PLUS) return FREE_TREE;
    if (other == WITH_PEER) return with_free ? FREE_PEER : TREE_PEER;
    return with_free ? FREE_VIRTUAL : TREE_VIRTUAL;
}
