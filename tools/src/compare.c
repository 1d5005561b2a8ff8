/* Compares the port with the original, request by request; and its refusals, and the rule and slot of a damaged table, with a second
   reading of the rules.
     compare ORIGINAL [SEED [REQUESTS]]
   ORIGINAL is the original's program (docs/DIFFERENCES.md). Requests are made up from SEED (1), until REQUESTS (250000) were
   accepted. Exit status: 0 nothing differs, 1 something differs, 2 a wrong call, or ORIGINAL does not run. */
#include <stdio.h>
#include <stdlib.h>
#include <string.h>

#include "judge.h"
#include "nests.h"
#include "original.h"
#include "partners.h"
#include "port.h"
#include "progress.h"
#include "shots.h"
#include "view.h"

enum { ROOM = 8192, RUN_BYTES = 65536, BATCH = 2000, FILL = 0xa5 };

/* ---- counts */

static struct {
    unsigned long accepted[ROWS], refused[14], at_side[14][3], stops[4], runs, tapes, tables, kept_sound, damaged, broken[9], nests, nests_broken[9], hurt, hurt_broken[9], faults, padded_tapes, padding, differences, shots, begins;
    unsigned long by_plan[PLANS], nested_expansions[3], commands;
    int deepest, largest_tree, longest_way, largest_ring;
    unsigned char begin_used[257];
    Partners partners;
} counts;

static unsigned long all_accepted(void) {
    unsigned long all = 0;
    for (int row = 0; row < ROWS; row++) all += counts.accepted[row];
    return all;
}

/* ---- what differs */

static uint32_t shot_number, step_number;
static Bytes shot_tape; /* the accepted requests of this shot, from a fresh table */

static void show(const char *name, const uint8_t *bytes, size_t length) {
    printf("  %s:", name);
    for (size_t i = 0; i < length; i++) printf("%s%02x", i % 2 ? "" : " ", bytes[i]);
    printf("\n");
}

/* All are counted, and the first twenty are shown; says whether this one is. */
static int difference(const char *what, uint32_t shot, uint32_t step, const Request *r) {
    uint8_t record[LONGEST_REQUEST];
    if (++counts.differences > 20) return 0;
    end_progress();
    printf("DIFFERENCE: %s (shot %u, step %u)\n", what, shot, step);
    if (r) show("request", record, write_request(record, r));
    return 1;
}

/* ---- the original on tables */

typedef struct {
    Request request;
    uint32_t shot, step;
    size_t expected; /* where its expected answer begins */
} Pending;

static Pending pending[BATCH];
static int pending_count;
static Bytes frames, expected;

static uint32_t four_bytes(const uint8_t *from) { return from[0] | from[1] << 8 | from[2] << 16 | (uint32_t)from[3] << 24; }

static void flush_frames(const char *original) {
    static Bytes answers;
    answers.length = 0;
    int status = run_program(original, "--tables", &frames, &answers), i = 0;
    size_t at = 0;
    for (; i < pending_count; i++) {
        Pending *p = &pending[i];
        size_t end = i + 1 < pending_count ? pending[i + 1].expected : expected.length, size = end - p->expected;
        if (answers.length - at < 5) break;
        int panics = answers.bytes[at] != 0;
        size_t said = four_bytes(answers.bytes + at + 1), got = 5 + said + (panics ? 0 : DUMP);
        if (answers.length - at < got) break;
        if (panics) {
            if (difference("the original panics on a request that 01 accepts", p->shot, p->step, &p->request))
                printf("  %.*s\n", (int)said, (const char *)answers.bytes + at + 5);
        } else {
            if (got != size || memcmp(answers.bytes + at, expected.bytes + p->expected, size)) {
                int table = got == size && !memcmp(answers.bytes + at, expected.bytes + p->expected, 5 + said);
                if (difference(table ? "table" : "commands", p->shot, p->step, &p->request)) show("original", answers.bytes + at + 5, said);
            }
            counts.tables++;
        }
        at += got;
    }
    if (i < pending_count) {
        if (difference("the original stops before it has answered", pending[i].shot, pending[i].step, &pending[i].request)) printf("  status %d\n", status);
    } else if (status || at != answers.length) {
        if (difference("the original ended otherwise than it should", 0, 0, NULL)) printf("  status %d, bytes too many: %zu\n", status, answers.length - at);
    }
    pending_count = 0, frames.length = 0, expected.length = 0;
}

static void compare_with(const char *original, const View *before, const Request *r, const uint8_t *said, size_t length, const View *after) {
    uint8_t dump[DUMP], record[LONGEST_REQUEST], head[5] = {0, length & 255, length >> 8 & 255, length >> 16 & 255, 0};
    pending[pending_count++] = (Pending){*r, shot_number, step_number, expected.length};
    append(&frames, dump, write_dump(dump, before));
    append(&frames, record, write_request(record, r));
    append(&expected, head, 5);
    append(&expected, said, length);
    append(&expected, dump, write_dump(dump, after));
    if (pending_count == BATCH) flush_frames(original);
}

/* ---- the port */

static int all_are(const uint8_t *bytes, size_t from, size_t to, uint8_t value) {
    for (size_t i = from; i < to; i++)
        if (bytes[i] != value) return 0;
    return 1;
}

static void measure(const View *t, const Request *r, Row row, const View *after) {
    if (row == ONE_TREE) {
        uint32_t made = after->begin + after->blossoms - 1, at = after->slot[made].ring;
        int depth = nesting_of(after, made), ring = 0;
        do ring++, at = after->slot[at].sibling;
        while (at != after->slot[made].ring);
        if (depth > counts.deepest) counts.deepest = depth;
        if (ring > counts.largest_ring) counts.largest_ring = ring;
    }
    if (row >= EXPAND_EVEN && row <= EXPAND_SAME && nesting_of(t, r->node_1) > 1) counts.nested_expansions[row - EXPAND_EVEN]++;
    if (row == TREE_PEER || row == FREE_PEER) {
        uint32_t n = place_of(t, r->node_1) == WITH_PEER ? r->node_1 : r->node_2, root = root_of(after, n);
        int nodes = 0, way = 0;
        for (uint32_t i = 0; i < SLOTS; i++) nodes += (after->slot[i].mark >= STAY && after->slot[i].parent != NONE && root_of(after, i) == root);
        for (uint32_t i = n; after->slot[i].parent != NONE; i = after->slot[i].parent) way++;
        if (nodes + 1 > counts.largest_tree) counts.largest_tree = nodes + 1;
        if (way + 1 > counts.longest_way) counts.longest_way = way + 1;
    }
}

/* What the questions for partners came to (partners.h). */
static void hold_partners(long wrong) {
    if (wrong == ALL_RIGHT) return;
    if (!difference("the partner of a defect", shot_number, step_number, NULL)) return;
    if (wrong >= 0) printf("  asked for %ld\n", wrong);
    else printf("  %s\n", wrong == TABLE_CHANGED ? "the table was changed" : wrong == BAD_LISTING ? "the listing names another number, or one twice" : "a nest could not be matched");
}

/* Rule and slot of a table against the second reading; says the rule. */
static int hold_fault(const uint16_t *words) {
    static View t;
    uint16_t kept[WORDS], at = 999;
    int slot;
    read_view(&t, words);
    memcpy(kept, words, sizeof kept);
    int broken = broken_rule(&t, &slot), given = boltclover_fault(words, &at);
    counts.faults++;
    if ((given != broken || at != slot) && difference("rule or slot", shot_number, step_number, NULL))
        printf("  the port names S%d at slot %d, the second reading S%d at slot %d\n", given, at, broken, slot);
    if (memcmp(kept, words, sizeof kept)) difference("the question for a fault changed the table", shot_number, step_number, NULL);
    return broken;
}

/* One request: number and side against the second reading, a refusal's bytes and table against those before, an accepted one's
   against the original's. Says whether it was accepted; what was said stands in out. */
static int try_request(const char *original, uint16_t *words, const Request *r, size_t room, uint8_t *out, boltclover_size *written) {
    static View before, after;
    static uint16_t kept[WORDS];
    read_view(&before, words);
    memcpy(kept, words, sizeof kept);
    memset(out, FILL, ROOM);
    int side, number = refusal_of(&before, r, room, &side);
    uint16_t at_side = 9;
    *written = 77777;
    int given = call_port(words, r, out, room, written, &at_side);
    if ((given != number || at_side != side) && difference("number or side", shot_number, step_number, r))
        printf("  the port gives %d at side %d, the second reading %d at side %d\n", given, at_side, number, side);
    if (given) {
        counts.refused[given < 14 ? given : 0]++;
        if (given < 14 && at_side < 3) counts.at_side[given][at_side]++;
        if (*written != 0 || memcmp(kept, words, sizeof kept) || !all_are(out, 0, ROOM, FILL)) difference("a refusal changed something", shot_number, step_number, r);
        return 0;
    }
    if (*written > room || !all_are(out, *written, ROOM, FILL)) difference("bytes past those written", shot_number, step_number, r);
    read_view(&after, words);
    Row row = row_of(&before, r);
    counts.accepted[row]++;
    measure(&before, r, row, &after);
    if (!hold_fault(words) && boltclover_sound(words)) counts.kept_sound++;
    else difference("a sound table did not stay sound", shot_number, step_number, r);
    hold_partners(wrong_partner(words, &after, r->node_1, &counts.partners));
    compare_with(original, &before, r, out, *written, &after);
    return 1;
}

/* ---- damaged tables */

static void try_damage(const char *original, Shot *shot, const uint16_t *words) {
    static View t;
    uint16_t hurt[WORDS], kept[WORDS];
    uint8_t out[ROOM];
    boltclover_size written, unread;
    read_view(&t, words);
    memcpy(hurt, words, sizeof hurt);
    damage_table(shot, &t, hurt);
    memcpy(kept, hurt, sizeof kept);
    Request r = chance(&shot->dice, 1, 2) ? wild_request(shot, &t) : next_request(shot, &t);
    if (chance(&shot->dice, 1, 10)) r.kind = chance(&shot->dice, 1, 2) ? LIST : RESET;
    read_view(&t, hurt);
    int broken = hold_fault(hurt), sound = !broken;
    if (boltclover_sound(hurt) != sound) difference(sound ? "sound to the second reading alone" : "sound to the port alone", shot_number, step_number, NULL);
    counts.damaged++, counts.broken[broken]++;
    hold_partners(wrong_partner(hurt, &t, r.node_1, &counts.partners));
    try_request(original, hurt, &r, chance(&shot->dice, 1, 8) ? roll(&shot->dice, 4096) : ROOM, out, &written);
    if (sound) return;
    uint8_t tape[] = {2, 0, 5, 0};
    uint16_t stop = 9;
    uint32_t handled = 9;
    memset(out, FILL, ROOM);
    int given = boltclover_run(hurt, tape, sizeof tape, out, ROOM, 7, &stop, &handled, &written, &unread);
    if (given != 1 || stop || handled || written || unread != sizeof tape || memcmp(kept, hurt, sizeof kept) || !all_are(out, 0, ROOM, FILL))
        difference("a run on a damaged table", shot_number, step_number, NULL);
}

/* Damage upon damage, so that a rule fails at several slots and several rules fail; on dice of its own, and for the check and the question
   for the fault alone. */
static void try_faults(Shot aside, const uint16_t *words) {
    static View t;
    uint16_t hurt[WORDS];
    memcpy(hurt, words, sizeof hurt);
    read_view(&t, words); /* what is damaged next is chosen on the sound table */
    for (int i = 0; i < 4; i++) {
        damage_table(&aside, &t, hurt);
        int broken = hold_fault(hurt);
        counts.hurt++, counts.hurt_broken[broken]++;
        if (boltclover_sound(hurt) != !broken) difference("soundness of a table damaged again", shot_number, step_number, NULL);
    }
}

/* ---- nests: matched, and every defect's partner asked for; sound and bent, for the check alone, which other requests only start with */

static void try_nest(Shot *shot, uint32_t depth) {
    uint16_t words[WORDS], bent[WORDS], kept[WORDS];
    if (!build_nest(&shot->dice, words, depth)) difference("a nest is refused", shot_number, 0, NULL);
    hold_partners(wrong_in_nest(shot->dice, words, depth, &counts.partners));
    for (int i = 0; i < 24; i++) {
        memcpy(bent, words, sizeof bent);
        if (i) bend_nest(shot, bent, depth);
        memcpy(kept, bent, sizeof kept);
        int broken = hold_fault(bent);
        counts.nests++, counts.nests_broken[broken]++;
        if (boltclover_sound(bent) != !broken || memcmp(kept, bent, sizeof kept) || (!i && broken))
            difference(broken ? "a nest sound to the port alone" : "a nest sound to the second reading alone", shot_number, i, NULL);
    }
}

/* on dice of their own, so that the requests of a seed stay what they are */
static void try_nests(Shot aside) {
    try_nest(&aside, 50);
    try_nest(&aside, DEEPEST);
}

/* ---- runs */

static void pad(Bytes *tape, Dice *d, const Bytes *good) {
    tape->length = 0;
    make_room(tape, 2 * good->length);
    tape->length = pad_tape(d, tape->bytes, good->bytes, good->length);
}

/* A run against its sentences in 01, over the calls of single requests that are compared above; some of the requests are padded. */
static void try_run(Shot *shot, const Bytes *good) {
    static uint8_t out[RUN_BYTES], want[RUN_BYTES];
    static View t;
    uint16_t words[WORDS], want_words[WORDS];
    static Bytes tape;
    Dice *d = &shot->dice;
    pad(&tape, d, good);
    damage_tape(d, tape.bytes, &tape.length);
    size_t room = chance(d, 1, 3) ? 4000 + roll(d, 3000) : roll(d, RUN_BYTES + 1);
    uint32_t allowance = chance(d, 1, 2) ? 100000 : roll(d, 300);
    boltclover_make(words, shot->begin);
    memcpy(want_words, words, sizeof words);
    memset(out, FILL, sizeof out), memset(want, FILL, sizeof want);

    size_t at = 0, pos = 0;
    uint32_t count = 0;
    int why;
    for (;; count++) {
        Request r;
        boltclover_size wrote = 0;
        if (at == tape.length) { why = 0; break; }
        if (count == allowance) { why = 1; break; }
        if (room - pos < 4104) { why = 2; break; }
        int size = read_request(&r, tape.bytes + at, tape.length - at);
        if (!size) { why = 3; break; }
        read_view(&t, want_words);
        int side, number = refusal_of(&t, &r, room - pos, &side);
        uint16_t none;
        if (!number) call_port(want_words, &r, want + pos, room - pos, &wrote, &none);
        const uint8_t end[] = {6, 0, 19, 0, number, 0, side, 0};
        memcpy(want + pos + wrote, end, sizeof end);
        pos += wrote + sizeof end, at += size;
    }
    uint16_t stop;
    uint32_t handled;
    boltclover_size written, unread;
    int given = boltclover_run(words, tape.bytes, tape.length, out, room, allowance, &stop, &handled, &written, &unread);
    counts.runs++, counts.stops[why]++;
    if (given || stop != why || handled != count || written != pos || unread != tape.length - at || memcmp(out, want, sizeof out) || memcmp(words, want_words, sizeof words))
        difference("a run", shot_number, step_number, NULL);
}

/* A tape on which some requests are padded is answered as the one on which none is. */
static void try_padding(Shot *shot, const Bytes *good) {
    static uint8_t out[2][RUN_BYTES];
    static uint16_t words[2][WORDS];
    static Bytes padded;
    uint16_t stop[2];
    uint32_t handled[2];
    boltclover_size written[2], unread[2];
    int given[2];
    size_t room = 4104 + roll(&shot->dice, RUN_BYTES - 4103);
    pad(&padded, &shot->dice, good);
    for (int i = 0; i < 2; i++) {
        const Bytes *tape = i ? &padded : good;
        boltclover_make(words[i], shot->begin);
        memset(out[i], FILL, sizeof out[i]);
        given[i] = boltclover_run(words[i], tape->bytes, tape->length, out[i], room, 100000, &stop[i], &handled[i], &written[i], &unread[i]);
    }
    counts.padded_tapes++, counts.padding += padded.length - good->length;
    if (given[0] || given[1] || stop[0] != stop[1] || handled[0] != handled[1] || written[0] != written[1] || memcmp(out[0], out[1], sizeof out[0]) || memcmp(words[0], words[1], sizeof words[0]) || (stop[0] == 0 && unread[1]))
        difference("a padded tape", shot_number, step_number, NULL);
}

/* The accepted requests of a shot as one tape: the original carries its own table from request to request. */
static void try_tape(const char *original, const Shot *shot, const Bytes *tape, const Bytes *answers) {
    static Bytes said;
    char word[8];
    said.length = 0;
    snprintf(word, sizeof word, "%u", shot->begin);
    int status = run_on_tape(original, word, tape, &said);
    counts.tapes++;
    if (status || said.length != answers->length || memcmp(said.bytes, answers->bytes, said.length)) difference("a whole tape", shot_number, step_number, NULL);
}

/* ---- shots */

static void try_make(Shot *shot) {
    uint16_t words[WORDS], kept[WORDS], begin = chance(&shot->dice, 1, 2) ? 0 : 257 + roll(&shot->dice, 65535 - 256);
    for (int i = 0; i < WORDS; i++) words[i] = kept[i] = roll(&shot->dice, 65536);
    if (boltclover_make(words, begin) != 13 || memcmp(words, kept, sizeof kept)) difference("making with a bad begin", shot_number, 0, NULL);
    counts.refused[13]++;
}

static void play(const char *original, uint64_t seed) {
    static Bytes every, answers;
    static View t;
    Shot shot = new_shot(seed, shot_number);
    uint16_t words[WORDS];
    uint8_t out[ROOM], record[LONGEST_REQUEST];
    const uint8_t end[] = {6, 0, 19, 0, 0, 0, 0, 0};
    boltclover_size written;
    every.length = answers.length = shot_tape.length = 0;
    memset(words, FILL, sizeof words);
    if (boltclover_make(words, shot.begin)) difference("making", shot_number, 0, NULL);
    try_make(&shot);
    if (shot_number % 8 == 0) try_nests(shot);
    counts.shots++, counts.by_plan[shot.plan]++;
    counts.begins += !counts.begin_used[shot.begin], counts.begin_used[shot.begin] = 1;
    for (step_number = 0; step_number < shot.length; step_number++) {
        if (chance(&shot.dice, 1, 12)) try_damage(original, &shot, words), try_faults(shot, words);
        read_view(&t, words);
        size_t room = chance(&shot.dice, 1, 40) ? roll(&shot.dice, 4096) : chance(&shot.dice, 1, 2) ? ROOM : 4096;
        Request r = chance(&shot.dice, 1, 8) ? wild_request(&shot, &t) : next_request(&shot, &t);
        if (r.kind == LIST && chance(&shot.dice, 1, 2)) room = 16 * present_defects(&t) - (present_defects(&t) > 0 && chance(&shot.dice, 1, 3));
        size_t size = write_request(record, &r);
        append(&every, record, size);
        if (!try_request(original, words, &r, room, out, &written)) continue;
        append(&shot_tape, record, size);
        append(&answers, out, written);
        append(&answers, end, sizeof end);
    }
    try_tape(original, &shot, &shot_tape, &answers);
    for (int i = 0; i < 3; i++) try_run(&shot, &every);
    try_padding(&shot, &every);
}

static void report(uint64_t seed) {
    printf("seed %llu: %lu shots (", (unsigned long long)seed, counts.shots);
    for (int i = 0; i < PLANS; i++) printf("%s%s %lu", i ? ", " : "", plan_names[i], counts.by_plan[i]);
    printf("), %lu different begins\n", counts.begins);
    printf("requests accepted: %lu\n", all_accepted());
    for (int row = 0; row < ROWS; row++) printf("  %-40s %8lu\n", row_names[row], counts.accepted[row]);
    printf("of the expansions, of blossoms that hold blossoms: d even %lu, d odd %lu, P is C %lu\n", counts.nested_expansions[0], counts.nested_expansions[1], counts.nested_expansions[2]);
    printf("tables compared with the original's: %lu; sound afterwards: %lu\n", counts.tables, counts.kept_sound);
    printf("tapes compared whole: %lu\n", counts.tapes);
    printf("deepest nesting %d, largest ring %d, largest tree %d nodes, longest way to a root %d nodes\n", counts.deepest, counts.largest_ring, counts.largest_tree, counts.longest_way + 1);
    printf("damaged tables: %lu, still sound %lu; the first rule broken:", counts.damaged, counts.broken[0]);
    for (int i = 1; i < 9; i++) printf(" S%d %lu%s", i, counts.broken[i], i < 8 ? "," : "\n");
    printf("tables damaged again and again: %lu, still sound %lu; the first rule broken:", counts.hurt, counts.hurt_broken[0]);
    for (int i = 1; i < 9; i++) printf(" S%d %lu%s", i, counts.hurt_broken[i], i < 8 ? "," : "\n");
    printf("nests of 50 and of 85 blossoms: %lu, sound %lu; the first rule broken:", counts.nests, counts.nests_broken[0]);
    for (int i = 1; i < 9; i++) printf(" S%d %lu%s", i, counts.nests_broken[i], i < 8 ? "," : "\n");
    printf("rule and slot compared: %lu tables\n", counts.faults);
    printf("refusals:");
    for (int i = 1; i < 14; i++) printf(" %d: %lu%s", i, counts.refused[i], i < 13 ? "," : "\n");
    printf("of these at side 1 and 2:");
    for (int i = 1; i < 14; i++)
        if (counts.at_side[i][1] || counts.at_side[i][2]) printf(" %d: %lu and %lu;", i, counts.at_side[i][1], counts.at_side[i][2]);
    printf(" the others at no side\n");
    printf("runs: %lu, stopped by the tape's end %lu, the allowance %lu, room %lu, a bad record %lu\n", counts.runs, counts.stops[0], counts.stops[1], counts.stops[2], counts.stops[3]);
    printf("tapes answered as without their padding: %lu, with %lu bytes of padding\n", counts.padded_tapes, counts.padding);
    printf("partners asked for: %lu; a defect %lu, a virtual vertex %lu, nobody %lu, refused %lu\n", counts.partners.asked, counts.partners.paired, counts.partners.virtually, counts.partners.alone, counts.partners.refused);
    printf("differences: %lu\n", counts.differences);
}

int main(int argc, char **argv) {
    if (argc < 2) return fprintf(stderr, "compare ORIGINAL [SEED [REQUESTS]]\n"), 2;
    uint64_t seed = argc > 2 ? strtoull(argv[2], NULL, 10) : 1;
    unsigned long requests = argc > 3 ? strtoul(argv[3], NULL, 10) : 250000;
    /* 256 shots with no accepted request: there will be none */
    for (unsigned long before = 0, idle = 0; all_accepted() < requests && idle < 256; shot_number++) {
        play(argv[1], seed);
        progress(all_accepted(), requests, "requests compared");
        idle = all_accepted() > before ? 0 : idle + 1, before = all_accepted();
    }
    if (all_accepted() < requests) difference("the port accepts nothing any more", shot_number, 0, NULL);
    flush_frames(argv[1]);
    end_progress();
    report(seed);
    return counts.differences != 0;
}
