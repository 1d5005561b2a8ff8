/* A table read from its words, and a request: what the parts of the comparison share. Nothing here comes from the port's code. */
#ifndef VIEW_H
#define VIEW_H

#include <stddef.h>
#include <stdint.h>

enum { SLOTS = 256, WORDS = 2819, NONE = 65535 };
#define NO_VERTEX 4294967295u

typedef enum { EMPTY, INNER, STAY, GROW, SHRINK } Mark; /* any other mark is damage */

typedef struct {
    uint32_t touch, peer_touch, through, peer_through;
} Link;

typedef struct {
    uint32_t mark, parent, child, sibling, ring;
    Link link;
} Slot;

typedef struct {
    uint32_t begin, defects, blossoms;
    Slot slot[SLOTS];
} View;

typedef enum { CONFLICT = 1, VIRTUAL, EXPANSION, RESET, LIST } Kind;

/* A virtual conflict has node_1, touch_1, vertex_1 and its virtual vertex in vertex_2; an expansion has node_1. */
typedef struct {
    Kind kind;
    uint32_t node_1, node_2, touch_1, touch_2, vertex_1, vertex_2;
} Request;

void read_view(View *view, const uint16_t *words);
size_t write_dump(uint8_t *to, const View *view); /* the table as the original's wrapper reads and writes it */
size_t write_request(uint8_t *to, const Request *request);
size_t write_padded(uint8_t *to, const Request *request); /* as recorders do: zeros up to a multiple of four bytes */
int read_request(Request *request, const uint8_t *tape, size_t length); /* the bytes of the record, or 0 for a bad one */

enum { DUMP = 6 + SLOTS * 22, LONGEST_REQUEST = 20 };

#endif
