#include "port.h"

uint16_t call_port(uint16_t *words, const Request *r, uint8_t *out, size_t room, boltclover_size *written, uint16_t *side) {
    switch (r->kind) {
    case CONFLICT: return boltclover_conflict(words, r->node_1, r->node_2, r->touch_1, r->touch_2, r->vertex_1, r->vertex_2, out, room, written, side);
    case VIRTUAL: return boltclover_virtual_conflict(words, r->node_1, r->touch_1, r->vertex_1, r->vertex_2, out, room, written, side);
    case EXPANSION: *side = 0; return boltclover_expand(words, r->node_1, out, room, written);
    case LIST: *side = 0; return boltclover_list(words, out, room, written);
    default: *side = 0, *written = 0; return boltclover_reset(words);
    }
}
