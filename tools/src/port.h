/* The port: any request by the library's calls. */
#ifndef PORT_H
#define PORT_H

#include "../../include/boltclover.h"
#include "view.h"

/* The number given back; the side is 0 where the call tells none. */
uint16_t call_port(uint16_t *words, const Request *r, uint8_t *out, size_t room, boltclover_size *written, uint16_t *side);

#endif
