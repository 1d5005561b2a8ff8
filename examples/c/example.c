/* A caller of the library: makes a table, brings two events into conflict, lists the pair, asks for a partner, is refused, runs a tape, and asks what is
   wrong with a damaged table. */
#include <stdio.h>
#include <string.h>

#include "boltclover.h"

static uint16_t table[BOLTCLOVER_TABLE_WORDS];
static uint8_t out[8192];

static unsigned narrow(const uint8_t *at) { return at[0] | at[1] << 8; }

static unsigned long wide(const uint8_t *at) { return narrow(at) | (unsigned long)narrow(at + 2) << 16; }

/* Says each record of the first `written` bytes in words. */
static void say(const uint8_t *bytes, boltclover_size written) {
    static const char *const speeds[] = {"stays", "grows", "shrinks"};
    for (boltclover_size at = 0; at < written; at += 2 + narrow(bytes + at)) {
        const uint8_t *field = bytes + at + 4;
        switch (narrow(bytes + at + 2)) {
        case 16: printf("  node %u %s\n", narrow(field), speeds[narrow(field + 2)]); break;
        case 17: printf("  blossom %u is made\n", narrow(field)); break;
        case 18: printf("  blossom %u is taken apart\n", narrow(field)); break;
        case 19:
            if (narrow(field + 2)) printf("  end %u at side %u\n", narrow(field), narrow(field + 2));
            else printf("  end %u\n", narrow(field));
            break;
        case 20: printf("  %u pairs with %u, through vertices %lu and %lu\n", narrow(field), narrow(field + 2), wide(field + 4), wide(field + 8)); break;
        case 21: printf("  %u pairs with the virtual vertex %lu, through vertex %lu\n", narrow(field), wide(field + 6), wide(field + 2)); break;
        }
    }
}

static size_t narrow_to(uint8_t *to, unsigned value) {
    to[0] = value & 255, to[1] = value >> 8;
    return 2;
}

/* A conflict as a tape holds it. The touches are the nodes themselves. */
static size_t conflict_record(uint8_t *to, unsigned node_1, unsigned node_2, unsigned vertex_1, unsigned vertex_2) {
    const unsigned fields[] = {18, 1, node_1, node_2, node_1, node_2, vertex_1, 0, vertex_2, 0};
    size_t size = 0;
    for (size_t i = 0; i < sizeof fields / sizeof *fields; i++) size += narrow_to(to + size, fields[i]);
    return size;
}

int main(void) {
    boltclover_size written;
    uint16_t side;

    printf("make a table of 128 defect slots: %u\n", boltclover_make(table, 128));

    uint16_t answer = boltclover_conflict(table, 0, 1, 0, 1, 10, 11, out, sizeof out, &written, &side);
    printf("conflict of 0 and 1: %u, %zu bytes\n", answer, (size_t)written);
    say(out, written);

    answer = boltclover_list(table, out, sizeof out, &written);
    printf("list: %u, %zu bytes\n", answer, (size_t)written);
    say(out, written);

    uint16_t kind, partner;
    uint32_t through, peer_through;
    answer = boltclover_partner(table, 1, &kind, &partner, &through, &peer_through);
    printf("partner of 1: %u, kind %u: %u, through vertices %lu and %lu\n", answer, kind, partner, (unsigned long)through, (unsigned long)peer_through);
    answer = boltclover_partner(table, 2, &kind, &partner, &through, &peer_through);
    printf("partner of 2: %u, kind %u\n", answer, kind);

    answer = boltclover_conflict(table, 0, 0, 0, 0, 10, 11, out, sizeof out, &written, &side);
    printf("conflict of 0 with itself: %u, %zu bytes\n", answer, (size_t)written);
    answer = boltclover_conflict(table, 2, 256, 2, 3, 12, 13, out, sizeof out, &written, &side);
    printf("conflict of 2 with 256: %u at side %u, %zu bytes\n", answer, side, (size_t)written);
    answer = boltclover_conflict(table, 2, 3, 2, 3, 12, 13, out, 4095, &written, &side);
    printf("conflict with 4,095 bytes of room: %u, %zu bytes\n", answer, (size_t)written);

    /* A tape: 2 meets the pair 0, 1, then the far end of it, which makes a blossom; then the listing; then a cut record. */
    uint8_t tape[64];
    size_t length = conflict_record(tape, 2, 0, 12, 10);
    length += conflict_record(tape + length, 2, 1, 12, 11);
    length += narrow_to(tape + length, 2);
    length += narrow_to(tape + length, 5);
    length += narrow_to(tape + length, 18);
    uint16_t stop;
    uint32_t handled;
    boltclover_size unread;
    answer = boltclover_run(table, tape, length, out, sizeof out, 1000, &stop, &handled, &written, &unread);
    printf("run of %zu bytes: %u, stop %u, %u handled, %zu bytes, %zu unread\n", length, answer, stop, (unsigned)handled, (size_t)written,
           (size_t)unread);
    say(out, written);

    printf("sound: %u\n", boltclover_sound(table));
    table[0] = 77;
    printf("sound with a word overwritten: %u; a conflict is then refused by %u\n", boltclover_sound(table),
           boltclover_conflict(table, 4, 5, 4, 5, 14, 15, out, sizeof out, &written, &side));
    uint16_t slot, rule = boltclover_fault(table, &slot);
    printf("what is wrong: rule S%u fails at slot %u\n", rule, slot);
    return 0;
}
