#include "view.h"

void read_view(View *view, const uint16_t *words) {
    for (int i = 0; i < SLOTS; i++) {
        const uint16_t *w = words + 11 * i;
        Link link = {w[5], w[6], w[7] | (uint32_t)w[8] << 16, w[9] | (uint32_t)w[10] << 16};
        view->slot[i] = (Slot){w[0], w[1], w[2], w[3], w[4], link};
    }
    view->begin = words[2816], view->defects = words[2817], view->blossoms = words[2818];
}

static uint8_t *put(uint8_t *to, uint32_t value, int bytes) {
    for (int i = 0; i < bytes; i++) *to++ = value >> (8 * i) & 255;
    return to;
}

size_t write_dump(uint8_t *to, const View *view) {
    uint8_t *at = put(put(put(to, view->begin, 2), view->defects, 2), view->blossoms, 2);
    for (int i = 0; i < SLOTS; i++) {
        const Slot *s = &view->slot[i];
        at = put(put(at, s->mark != EMPTY, 1), s->mark < STAY ? 255 : s->mark - STAY, 1);
        at = put(put(put(put(at, s->parent, 2), s->child, 2), s->sibling, 2), s->ring, 2);
        at = put(put(put(put(at, s->link.touch, 2), s->link.through, 4), s->link.peer_touch, 2), s->link.peer_through, 4);
    }
    return at - to;
}

size_t write_request(uint8_t *to, const Request *r) {
    uint8_t *at = put(put(to, 0, 2), r->kind, 2);
    if (r->kind == CONFLICT) {
        at = put(put(put(put(at, r->node_1, 2), r->node_2, 2), r->touch_1, 2), r->touch_2, 2);
        at = put(put(at, r->vertex_1, 4), r->vertex_2, 4);
    } else if (r->kind == VIRTUAL) {
        at = put(put(put(put(at, r->node_1, 2), r->touch_1, 2), r->vertex_1, 4), r->vertex_2, 4);
    } else if (r->kind == EXPANSION) {
        at = put(at, r->node_1, 2);
    }
    put(to, at - to - 2, 2);
    return at - to;
}

size_t write_padded(uint8_t *to, const Request *r) {
    size_t size = write_request(to, r);
    for (; size % 4; size++) to[size] = 0;
    put(to, size - 2, 2);
    return size;
}

static uint32_t take(const uint8_t *from, int bytes) {
    uint32_t value = 0;
    for (int i = 0; i < bytes; i++) value |= (uint32_t)from[i] << (8 * i);
    return value;
}

int read_request(Request *r, const uint8_t *tape, size_t length) {
    static const uint32_t sizes[] = {0, 20, 16, 6, 4, 4};
    if (length < 4) return 0;
    uint32_t size = 2 + take(tape, 2), kind = take(tape + 2, 2);
    if (length < size || kind < CONFLICT || kind > LIST || size < sizes[kind]) return 0;
    if (size > sizes[kind] && (size % 4 || size - sizes[kind] > 3)) return 0;
    for (uint32_t i = sizes[kind]; i < size; i++)
        if (tape[i]) return 0;
    *r = (Request){.kind = kind};
    const uint8_t *at = tape + 4;
    if (kind == CONFLICT) {
        *r = (Request){kind, take(at, 2), take(at + 2, 2), take(at + 4, 2), take(at + 6, 2), take(at + 8, 4), take(at + 12, 4)};
    } else if (kind == VIRTUAL) {
        r->node_1 = take(at, 2), r->touch_1 = take(at + 2, 2), r->vertex_1 = take(at + 4, 4), r->vertex_2 = take(at + 8, 4);
    } else if (kind == EXPANSION) {
        r->node_1 = take(at, 2);
    }
    return size;
}
