/* Plays a batch (batch.c) on the library that it is linked with: play <BATCH >WHAT-HAPPENED 2>STACK
   Each call gives a line: what was called, the number given back and its side, the bytes written, or what a partner or a fault is, and the words of the
   table that changed.
   All bytes and words are in it, the first of them as they are and all of them in a sum; so two libraries that do the same give the same
   lines. Bytes lie at any address, the table at one that is aligned by 2 and no more. */
#include "machine.h"
#include "port.h"
#include "view.h"

enum { MOST = 65536, FILL = 0xa5, SHOWN_BYTES = 64, SHOWN_WORDS = 16, STACK = 262144 };

/* ---- reading and writing */

static uint8_t input[MOST], output[MOST];
static size_t input_at, input_end, output_end;

static uint32_t take(int bytes) {
    uint32_t value = 0;
    for (int i = 0; i < bytes; i++) {
        if (input_at == input_end) {
            long got = read_from(0, input, sizeof input);
            if (got <= 0) end_with(2);
            input_at = 0, input_end = got;
        }
        value |= (uint32_t)input[input_at++] << (8 * i);
    }
    return value;
}

/* the next letter, or 0 at the end */
static int letter(void) {
    if (input_at == input_end) {
        long got = read_from(0, input, sizeof input);
        if (got <= 0) return 0;
        input_at = 0, input_end = got;
    }
    return input[input_at++];
}

static void flush(int file) {
    for (size_t at = 0; at < output_end;) {
        long done = write_to(file, output + at, output_end - at);
        if (done <= 0) end_with(2);
        at += done;
    }
    output_end = 0;
}

static void say(const char *text) {
    for (; *text; text++) {
        if (output_end == sizeof output) flush(1);
        output[output_end++] = *text;
    }
}

static void say_hex(uint32_t value, int digits) {
    char text[9];
    for (int i = 0; i < digits; i++) text[i] = "0123456789abcdef"[value >> (4 * (digits - 1 - i)) & 15];
    text[digits] = 0;
    say(text);
}

static void say_number(uint32_t value) {
    char text[12];
    int at = 11;
    text[at] = 0;
    do text[--at] = '0' + value % 10, value /= 10;
    while (value);
    say(text + at);
}

static void say_spaced(uint32_t value) { say(" "), say_number(value); }

static void say_size(boltclover_size value) {
    if (value >> 32) say(" 0x"), say_hex(value >> 32, 8), say_hex((uint32_t)value, 8);
    else say_spaced((uint32_t)value);
}

/* ---- the sum of many numbers */

typedef struct {
    uint32_t a, b;
} Sum;

static void add(Sum *sum, uint32_t value) {
    sum->a = (sum->a ^ value) * 16777619u;
    sum->b = (sum->b + value) * 2654435761u;
    sum->b ^= sum->b >> 15;
}

static void say_sum(Sum sum) { say(" "), say_hex(sum.a, 8), say_hex(sum.b, 8); }

/* ---- the table and the bytes */

static struct {
    uint32_t before; /* so that the words after it are aligned by 2 and not by 4 */
    uint16_t more, words[WORDS];
} room_for_table;
static uint16_t *const table = room_for_table.words;
static uint16_t known[WORDS], kept[WORDS];

static uint32_t bytes[(MOST + 16) / 4];
static uint8_t *out;
static size_t span; /* of `bytes`, filled before a call */

static void fill(uint32_t call, size_t room) {
    span = (room + 15) / 4;
    for (size_t i = 0; i < span; i++) bytes[i] = FILL * 0x01010101u;
    out = (uint8_t *)bytes + call % 4;
}

static void say_bytes(boltclover_size written) {
    const uint8_t *at = (const uint8_t *)bytes, *end = (const uint8_t *)(bytes + span);
    size_t length = written < (size_t)(end - out) ? (size_t)written : (size_t)(end - out);
    Sum sum = {0, 0};
    uint32_t others = 0;
    say(" ");
    for (size_t i = 0; i < length; i++) {
        if (i < SHOWN_BYTES) say_hex(out[i], 2);
        add(&sum, out[i]);
    }
    for (; at < end; at++) {
        if (at == out) at += length;
        if (at < end && *at != FILL) others++;
    }
    say_sum(sum), say(" other bytes"), say_spaced(others);
}

static void say_words(void) {
    Sum sum = {0, 0};
    uint32_t count = 0;
    say(" words");
    for (uint32_t i = 0; i < WORDS; i++) {
        if (table[i] == known[i]) continue;
        if (count++ < SHOWN_WORDS) say_spaced(i), say("="), say_number(table[i]);
        add(&sum, i), add(&sum, table[i]);
        known[i] = table[i];
    }
    say_spaced(count), say_sum(sum), say("\n");
}

/* ---- the calls, by what stands here, so that they can be made on any stack */

static Request asked;
static uint8_t tape_bytes[MOST + 16];
static const uint8_t *tape;
static uint32_t length, room, allowance;
static uint16_t begin, defect, answer;
static struct {
    uint16_t stop, side;
    uint32_t handled;
    boltclover_size written, unread;
    uint16_t slot, kind, partner;
    uint32_t through, peer_through;
} told;

static void nothing(void) {}
static void make(void) { answer = boltclover_make(table, begin); }
static void check(void) { answer = boltclover_sound(table); }
static void find_fault(void) { answer = boltclover_fault(table, &told.slot); }
static void ask(void) { answer = boltclover_partner(table, defect, &told.kind, &told.partner, &told.through, &told.peer_through); }
static void request(void) { answer = call_port(table, &asked, out, room, &told.written, &told.side); }
static void run(void) {
    answer = boltclover_run(table, tape, length, out, room, allowance, &told.stop, &told.handled, &told.written, &told.unread);
}

/* The stack that a call takes: it is painted first, and what is no longer painted afterwards was touched. A call that is to be measured
   has a stack of its own; all others share one, which is painted once. */
typedef struct {
    _Alignas(16) uint64_t words[STACK / 8];
} Stack;

static Stack own_stack, common_stack;
static char measured[256]; /* the name to tell it by; empty where it is not asked for */

static void paint(Stack *stack) {
    for (size_t i = 0; i < STACK / 8; i++) stack->words[i] = FILL * 0x0101010101010101u;
}

static uint32_t touched(const Stack *stack) {
    const uint8_t *low = (const uint8_t *)stack, *high = low + STACK;
    while (low < high && *low == FILL) low++;
    return high - low;
}

static void call_with(Stack *stack, void (*call)(void)) { call_on(stack->words + STACK / 8, call); }

static void say_stack(const char *name, const Stack *stack) {
    uint32_t all = touched(stack);
    paint(&own_stack), call_with(&own_stack, nothing);
    flush(1);
    say(name), say_spaced(all - touched(&own_stack)), say("\n");
    flush(2);
}

static void do_call(void (*call)(void)) {
    told.stop = 9, told.side = 9, told.handled = 9, told.written = 77777, told.unread = 77777;
    told.slot = 9, told.kind = 9, told.partner = 9, told.through = 9, told.peer_through = 9;
    if (!measured[0]) {
        call_with(&common_stack, call);
        return;
    }
    paint(&own_stack), call_with(&own_stack, call), say_stack(measured, &own_stack);
    measured[0] = 0;
}

/* ---- entries */

static uint32_t number, requests, accepted, questions, faults, runs, tables, stored;

static void head(const char *what) { say_number(++number), say(" "), say(what); }

static void take_name(char *to) {
    uint32_t count = take(1);
    for (uint32_t i = 0; i < count; i++) to[i] = take(1);
    to[count] = 0;
}

static void play_request(void) {
    static const char *const names[] = {"", "conflict", "virtual", "expand", "reset", "list"};
    uint8_t record[LONGEST_REQUEST];
    room = take(4);
    record[0] = take(1), record[1] = take(1);
    if (record[1] || record[0] > LONGEST_REQUEST - 2) end_with(2);
    for (int i = 0; i < record[0]; i++) record[2 + i] = take(1);
    if (!read_request(&asked, record, 2 + record[0])) end_with(2);
    head(names[asked.kind]);
    if (asked.kind < RESET) say_spaced(asked.node_1);
    if (asked.kind == CONFLICT) say_spaced(asked.node_2);
    if (asked.kind < EXPANSION) say_spaced(asked.touch_1);
    if (asked.kind == CONFLICT) say_spaced(asked.touch_2);
    if (asked.kind < EXPANSION) say_spaced(asked.vertex_1), say_spaced(asked.vertex_2);
    fill(number, room);
    do_call(request);
    requests++, accepted += answer == 0;
    say(" room"), say_spaced(room), say(":"), say_spaced(answer), say(" side"), say_spaced(told.side), say(" written"), say_size(told.written), say_bytes(told.written), say_words();
}

static void play_question(void) {
    defect = take(2);
    head("partner"), say_spaced(defect);
    do_call(ask);
    questions++;
    say(":"), say_spaced(answer), say(" kind"), say_spaced(told.kind), say_spaced(told.partner), say(" through"), say_spaced(told.through), say_spaced(told.peer_through), say_words();
}

static void play_run(void) {
    length = take(4), room = take(4), allowance = take(4);
    if (length > MOST || room > MOST) end_with(2);
    uint8_t *at = tape_bytes + number % 8;
    for (uint32_t i = 0; i < length; i++) at[i] = take(1);
    tape = at;
    head("run"), say_spaced(length), say(" room"), say_spaced(room), say(" allowance"), say_spaced(allowance);
    fill(number, room);
    do_call(run);
    runs++;
    say(":"), say_spaced(answer), say(" stop"), say_spaced(told.stop), say(" handled"), say_spaced(told.handled), say(" unread"), say_size(told.unread);
    say(" written"), say_size(told.written), say_bytes(told.written), say_words();
}

/* The answers of the run before, as they are stored. */
static void play_answers(void) {
    uint32_t count = take(4), other = 0;
    for (uint32_t i = 0; i < count; i++) other += take(1) != (i < told.written ? out[i] : 256u);
    head(other || count != told.written ? "NOT as stored: other bytes" : "as stored: other bytes"), say_spaced(other), say(" of"), say_spaced(count), say("\n");
    stored++;
}

static void play_words(void) {
    for (uint32_t count = take(2); count > 0; count--) {
        uint32_t i = take(2);
        uint16_t value = take(2);
        if (i >= WORDS) end_with(2);
        table[i] = known[i] = value;
    }
    tables++;
}

int start(int count, char **arguments) {
    (void)count, (void)arguments;
    char name[256];
    paint(&common_stack);
    for (int what; (what = letter()) != 0;) {
        switch (what) {
        case 'M': begin = take(2), head("make"), say_spaced(begin), do_call(make), say(":"), say_spaced(answer), say_words(); break;
        case 'R': play_request(); break;
        case 'S': head("sound:"), do_call(check), say_spaced(answer), say_words(); break;
        case 'F': head("fault:"), do_call(find_fault), say_spaced(answer), say(" slot"), say_spaced(told.slot), say_words(), faults++; break;
        case 'P': play_question(); break;
        case 'T': play_run(); break;
        case 'A': play_answers(); break;
        case 'K':
            for (int i = 0; i < WORDS; i++) kept[i] = table[i];
            break;
        case 'B':
            for (int i = 0; i < WORDS; i++) table[i] = known[i] = kept[i];
            break;
        case 'W': play_words(); break;
        case 'D': take_name(measured); break;
        case 'N': take_name(name), head("== "), say(name), say("\n"); break;
        default: end_with(2);
        }
    }
    say("requests"), say_spaced(requests), say(" accepted"), say_spaced(accepted), say(" refused"), say_spaced(requests - accepted);
    say(" questions"), say_spaced(questions), say(" faults asked for"), say_spaced(faults), say(" damaged tables"), say_spaced(tables), say(" runs"), say_spaced(runs), say(" tapes with stored answers"), say_spaced(stored), say("\n");
    say_stack("any other call", &common_stack);
    return 0;
}
