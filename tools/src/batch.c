/* Makes a batch: calls for tools/src/play.c and tools/src/play.mjs to make on every target, from stored tapes and made up from a seed.
     batch SEED REQUESTS [BEGIN TAPE].. >BATCH
   A TAPE is run on a fresh table of its BEGIN; where there is a TAPE.answers, the answers are held to it. Then come the deepest tables,
   and shots (shots.h) until REQUESTS requests were made. It carries the tables along with the library that it is linked with.

   A batch is a row of entries, a letter and numbers of so many bytes, little-endian:
     M begin 2                                    make a table
     R room 4, record                             a request, as a tape holds it
     S                                            the soundness check
     F                                            the question why the table is damaged
     P defect 2                                   the question for a partner
     T length 4, room 4, allowance 4, tape        a run
     A length 4, bytes                            what the run before it should have written
     K, B                                         keep a copy of the table; take it back
     W count 2, (index 2, value 2) ..             write words of the table: damage
     D length 1, name                             tell how much stack the next call takes, by this name
     N length 1, name                             a name for what follows */
#include "deep.h"
#include "judge.h"
#include "machine.h"
#include "port.h"
#include "shots.h"
#include "view.h"

enum { ROOM = 8192, MOST = 65536, SLOT_WORDS = 11 };

/* ---- writing */

static uint8_t buffer[MOST];
static size_t filled;

static void flush(void) {
    for (size_t at = 0; at < filled;) {
        long done = write_to(1, buffer + at, filled - at);
        if (done <= 0) end_with(2);
        at += done;
    }
    filled = 0;
}

static void put(uint32_t value, int bytes) {
    if (filled + 4 > sizeof buffer) flush();
    for (int i = 0; i < bytes; i++) buffer[filled++] = value >> (8 * i) & 255;
}

static void put_bytes(const uint8_t *bytes, size_t length) {
    for (size_t i = 0; i < length; i++) put(bytes[i], 1);
}

static void put_name(char letter, const char *name) {
    size_t length = 0;
    while (name[length] && length < 255) length++;
    put(letter, 1), put(length, 1), put_bytes((const uint8_t *)name, length);
}

/* ---- calls, and the table that they are for */

static uint16_t words[WORDS];
static uint8_t out[MOST];
static unsigned long made;

static void make(uint16_t begin) {
    put('M', 1), put(begin, 2);
    boltclover_make(words, begin);
}

static void put_request(const Request *r, uint32_t room) {
    uint8_t record[LONGEST_REQUEST];
    put('R', 1), put(room, 4), put_bytes(record, write_request(record, r));
    made++;
}

static void request(const Request *r, uint32_t room) {
    boltclover_size written;
    uint16_t side;
    put_request(r, room);
    call_port(words, r, out, room, &written, &side);
}

static void put_question(uint32_t defect) { put('P', 1), put(defect, 2); }

static void put_run(const uint8_t *tape, size_t length, uint32_t room, uint32_t allowance) {
    put('T', 1), put(length, 4), put(room, 4), put(allowance, 4), put_bytes(tape, length);
}

/* ---- stored tapes */

static size_t read_file(const char *folder_and_name, const char *ending, uint8_t *to, size_t room) {
    char name[4096];
    size_t at = 0, length = 0;
    for (; *folder_and_name && at < sizeof name - 20; folder_and_name++) name[at++] = *folder_and_name;
    while (*ending) name[at++] = *ending++;
    name[at] = 0;
    int file = open_to_read(name);
    if (file < 0) return (size_t)-1;
    for (long got; length < room && (got = read_from(file, to + length, room - length)) > 0;) length += got;
    return length;
}

static void stored_tape(const char *begin, const char *name) {
    static uint8_t tape[MOST], answers[MOST];
    uint16_t number = 0;
    for (; *begin; begin++) number = number * 10 + (*begin - '0');
    size_t length = read_file(name, "", tape, MOST), wanted = read_file(name, ".answers", answers, MOST);
    if (length == (size_t)-1) end_with(2);
    put_name('N', name);
    make(number);
    put_run(tape, length, MOST, 100000);
    if (wanted != (size_t)-1) put('A', 1), put(wanted, 4), put_bytes(answers, wanted);
}

/* ---- the deepest tables (deep.h): checked, trees met by a new node, matched by a virtual conflict, listed, by single calls and in runs,
   and asked for partners; and for a fault, which none has */

static void meet(uint16_t a, uint16_t b, uint16_t touch_a, uint16_t touch_b) {
    Request r = {CONFLICT, a, b, touch_a, touch_b, 1000u + touch_a, 1000u + touch_b};
    request(&r, ROOM);
}

/* The next call is measured, and told by these words. */
static void measured(const char *table, const char *what) {
    char name[80];
    size_t length = 0;
    while (*table) name[length++] = *table++;
    while (*what) name[length++] = *what++;
    name[length] = 0;
    put_name('D', name);
}

static void deep(enum deep which, const char *table, uint16_t node, uint16_t touch) {
    Request match = {VIRTUAL, node, 0, touch, 0, 1, 2}, list = {.kind = LIST};
    uint8_t record[LONGEST_REQUEST];
    deep_table(which, deep_sizes[which], make, meet);
    measured(table, " checked"), put('S', 1), put('F', 1);
    if (which == TREE_TABLE || which == WIDE_TABLE) {
        Request met = {CONFLICT, node, 255, touch, 255, 1, 2};
        put('K', 1);
        measured(table, " met in a run"), put_run(record, write_request(record, &met), ROOM, 1);
        put('B', 1);
    }
    put('K', 1);
    measured(table, " matched in a run"), put_run(record, write_request(record, &match), ROOM, 1);
    put('B', 1);
    measured(table, " matched"), request(&match, ROOM);
    measured(table, " listed in a run"), put_run(record, write_request(record, &list), ROOM, 1);
    measured(table, " listed"), request(&list, ROOM);
    measured(table, " asked for its first defect"), put_question(0);
    measured(table, " asked for the touched defect"), put_question(touch);
}

/* Begin 1, and each of 255 blossoms the one node of the next one's ring: no table takes the check deeper, which then finds the innermost
   ring too short. */
static void hollow(void) {
    make(1);
    put('K', 1), put('W', 1), put(256 + 255 + 255 + 2, 2);
    for (int i = 0; i < 256; i++) {
        put(SLOT_WORDS * i, 2), put(i < 255 ? 1 : 3, 2);
        if (i < 255) put(SLOT_WORDS * i + 1, 2), put(i + 1, 2);
        if (i > 0) put(SLOT_WORDS * i + 4, 2), put(i - 1, 2);
    }
    put(WORDS - 2, 2), put(1, 2);
    put(WORDS - 1, 2), put(255, 2);
    measured("hollow nest", " checked"), put('S', 1);
    measured("hollow nest", " asked for its fault"), put('F', 1);
    put('B', 1);
}

static void deepest(void) {
    put_name('N', "the deepest tables");
    deep(TREE_TABLE, "tree", 254, 254);
    deep(WIDE_TABLE, "wide tree", 254, 254);
    deep(NESTED_TABLE, "nest", 255, 0);
    deep(OUTSIDE_TABLE, "nest touched outside", 255, 170);
    hollow();
}

/* ---- shots */

static void damaged(Shot *shot) {
    static View t;
    static uint16_t hurt[WORDS];
    uint32_t count = 0;
    read_view(&t, words);
    for (int i = 0; i < WORDS; i++) hurt[i] = words[i];
    damage_table(shot, &t, hurt);
    for (int i = 0; i < WORDS; i++) count += hurt[i] != words[i];
    put('K', 1), put('W', 1), put(count, 2);
    for (int i = 0; i < WORDS; i++)
        if (hurt[i] != words[i]) put(i, 2), put(hurt[i], 2);
    Request r = chance(&shot->dice, 1, 2) ? wild_request(shot, &t) : next_request(shot, &t);
    if (chance(&shot->dice, 1, 10)) r.kind = chance(&shot->dice, 1, 2) ? LIST : RESET;
    put('S', 1), put('F', 1);
    put_question(r.node_1);
    put_request(&r, chance(&shot->dice, 1, 8) ? roll(&shot->dice, 4096) : ROOM);
    static const uint8_t tape[] = {2, 0, 5, 0};
    put_run(tape, sizeof tape, ROOM, 7);
    put('B', 1);
}

static void runs(Shot *shot, const uint8_t *every, size_t length) {
    static uint8_t tape[2 * MOST];
    Dice *d = &shot->dice;
    for (int i = 0; i < 3; i++) {
        size_t size = pad_tape(d, tape, every, length);
        damage_tape(d, tape, &size);
        make(shot->begin);
        put_run(tape, size, chance(d, 1, 3) ? 4000 + roll(d, 3000) : roll(d, MOST + 1), chance(d, 1, 2) ? 100000 : roll(d, 300));
    }
}

static void play_shot(uint64_t seed, uint32_t number) {
    static View t;
    static uint8_t every[MOST];
    size_t length = 0;
    Shot shot = new_shot(seed, number);
    make(chance(&shot.dice, 1, 2) ? 0 : 257 + roll(&shot.dice, 65535 - 256));
    make(shot.begin);
    for (uint32_t step = 0; step < shot.length; step++) {
        if (chance(&shot.dice, 1, 12)) damaged(&shot);
        read_view(&t, words);
        uint32_t room = chance(&shot.dice, 1, 40) ? roll(&shot.dice, 4096) : chance(&shot.dice, 1, 2) ? ROOM : 4096;
        Request r = chance(&shot.dice, 1, 8) ? wild_request(&shot, &t) : next_request(&shot, &t);
        if (r.kind == LIST && chance(&shot.dice, 1, 2)) room = 16 * present_defects(&t) - (present_defects(&t) > 0 && chance(&shot.dice, 1, 3));
        length += write_request(every + length, &r);
        request(&r, room);
        put_question(r.touch_1);
    }
    runs(&shot, every, length);
}

static uint64_t number_of(const char *digits) {
    uint64_t value = 0;
    for (; *digits; digits++) value = value * 10 + (*digits - '0');
    return value;
}

int start(int count, char **arguments) {
    if (count < 3) return 2;
    for (int i = 3; i + 1 < count; i += 2) stored_tape(arguments[i], arguments[i + 1]);
    deepest();
    put_name('N', "made up");
    uint64_t seed = number_of(arguments[1]), requests = number_of(arguments[2]);
    for (uint32_t shot = 0; made < requests; shot++) play_shot(seed, shot);
    flush();
    return 0;
}
