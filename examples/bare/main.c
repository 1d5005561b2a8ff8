/* A program without an operating system: makes a table, serves the requests of a tape one by one, and tells each with its answers on the
   serial line, and in the end the listing, in the words of `./boltclover show`. */
#include <stddef.h>

#include "board.h"
#include "boltclover.h"

extern const uint8_t tape[], tape_end[]; /* start-*.S */

static uint16_t table[BOLTCLOVER_TABLE_WORDS];
static uint8_t out[BOLTCLOVER_RUN_ROOM];

/* ---- words */

static void say(const char *text) {
    for (; *text; text++) put_character(*text);
}

static void say_number(uint32_t value) {
    char digits[11];
    int at = 10;
    digits[at] = 0;
    do digits[--at] = '0' + value % 10, value /= 10;
    while (value);
    say(" "), say(digits + at);
}

static uint32_t narrow(const uint8_t *at) { return at[0] | at[1] << 8; }

static uint32_t wide(const uint8_t *at) { return narrow(at) | narrow(at + 2) << 16; }

/* A number that can be none. */
static void say_node(const uint8_t *at) {
    if (narrow(at) == BOLTCLOVER_NO_NODE) say(" none");
    else say_number(narrow(at));
}

static void say_vertex(const uint8_t *at) {
    if (wide(at) == BOLTCLOVER_NO_VERTEX) say(" none");
    else say_number(wide(at));
}

/* ---- records */

static void say_request(const uint8_t *record) {
    const uint8_t *field = record + 4;
    switch (narrow(record + 2)) {
    case 1:
        say("conflict"), say_node(field), say_node(field + 2);
        say(" touch"), say_node(field + 4), say_node(field + 6);
        say(" vertex"), say_vertex(field + 8), say_vertex(field + 12);
        break;
    case 2: say("virtual"), say_node(field), say(" touch"), say_node(field + 2), say(" vertex"), say_vertex(field + 4), say(" virtual"), say_vertex(field + 8); break;
    case 3: say("expand"), say_node(field); break;
    case 4: say("reset"); break;
    case 5: say("list"); break;
    }
    say("\n");
}

static void say_answers(const uint8_t *bytes, boltclover_size written) {
    static const char *const speeds[] = {" Stay", " Grow", " Shrink"};
    for (boltclover_size at = 0; at < written; at += 2 + narrow(bytes + at)) {
        const uint8_t *field = bytes + at + 4;
        say(" ");
        switch (narrow(bytes + at + 2)) {
        case 16: say_node(field), say(speeds[narrow(field + 2)]); break;
        case 17: say(" create"), say_node(field); break;
        case 18: say(" expanded"), say_node(field); break;
        case 19:
            if (narrow(field)) say(" refused"), say_number(narrow(field));
            else say(" end");
            if (narrow(field + 2)) say(" at side"), say_number(narrow(field + 2));
            break;
        case 20: say(" pair"), say_node(field), say_node(field + 2), say(" through"), say_vertex(field + 4), say_vertex(field + 8); break;
        case 21: say(" pair"), say_node(field), say(" virtual"), say_vertex(field + 6), say(" through"), say_vertex(field + 2); break;
        }
        say("\n");
    }
}

void serve(void) {
    boltclover_size left = tape_end - tape, written, unread;
    uint16_t stop;
    uint32_t handled;
    if (boltclover_make(table, 128) != BOLTCLOVER_DONE) power_off();
    while (left > 0) {
        const uint8_t *next = tape_end - left;
        uint16_t answer = boltclover_run(table, next, left, out, sizeof out, 1, &stop, &handled, &written, &unread);
        if (answer != BOLTCLOVER_DONE || handled != 1) {
            say("the tape is bad\n");
            break;
        }
        say_request(next);
        say_answers(out, written);
        left = unread;
    }
    say("listing\n");
    if (boltclover_list(table, out, sizeof out, &written) == BOLTCLOVER_DONE) say_answers(out, written);
    power_off();
}

void fault(void) {
    say("a fault of the processor\n");
    power_off();
}
