#include "partners.h"

#include <string.h>

#include "../../include/boltclover.h"

typedef struct {
    uint16_t number, kind, partner;
    uint32_t through, peer_through;
} Answer;

static const Answer nobody = {BOLTCLOVER_DONE, BOLTCLOVER_PARTNER_NOBODY, NONE, NO_VERTEX, NO_VERTEX};

static uint32_t narrow(const uint8_t *at) { return at[0] | at[1] << 8; }
static uint32_t wide(const uint8_t *at) { return narrow(at) | narrow(at + 2) << 16; }

static int is_present_defect(const View *t, uint32_t n) { return n < SLOTS && n < t->begin && t->slot[n].mark != EMPTY; }

/* One more defect that a listing names; 0 where it is none, or was named before. */
static int name(Answer *of, const View *t, uint32_t d, Answer answer) {
    if (!is_present_defect(t, d) || of[d].kind != BOLTCLOVER_PARTNER_NOBODY) return 0;
    of[d] = answer;
    return 1;
}

/* What the entries of a listing say of each defect, as it sees it. */
static int read_listing(Answer *of, const View *t, const uint8_t *entries, size_t length) {
    int fine = 1;
    for (int d = 0; d < SLOTS; d++) of[d] = nobody;
    for (size_t at = 0; at < length; at += 2 + narrow(entries + at)) {
        const uint8_t *field = entries + at + 4;
        uint32_t node = narrow(field), peer = narrow(field + 2);
        if (narrow(entries + at + 2) == 20) {
            fine &= name(of, t, node, (Answer){0, BOLTCLOVER_PARTNER_DEFECT, peer, wide(field + 4), wide(field + 8)});
            fine &= name(of, t, peer, (Answer){0, BOLTCLOVER_PARTNER_DEFECT, node, wide(field + 8), wide(field + 4)});
        } else {
            fine &= name(of, t, node, (Answer){0, BOLTCLOVER_PARTNER_VIRTUAL, NONE, wide(field + 2), wide(field + 6)});
        }
    }
    return fine;
}

static Answer ask(const uint16_t *words, uint16_t defect) {
    Answer a = {9, 9, 9, 9, 9};
    a.number = boltclover_partner(words, defect, &a.kind, &a.partner, &a.through, &a.peer_through);
    return a;
}

static int same(Answer a, Answer b) {
    return a.number == b.number && a.kind == b.kind && a.partner == b.partner && a.through == b.through && a.peer_through == b.peer_through;
}

static int asked_rightly(const uint16_t *words, const View *t, int sound, const Answer *listed, uint32_t n, Partners *counts) {
    Answer want = nobody, got = ask(words, n);
    if (!sound) want.number = BOLTCLOVER_NOT_SOUND;
    else if (!is_present_defect(t, n)) want.number = BOLTCLOVER_NO_SUCH_NODE;
    else want = listed[n];
    counts->asked++;
    if (got.number) counts->refused++;
    else if (got.kind == BOLTCLOVER_PARTNER_DEFECT) counts->paired++;
    else if (got.kind == BOLTCLOVER_PARTNER_VIRTUAL) counts->virtually++;
    else counts->alone++;
    return same(got, want);
}

long wrong_partner(const uint16_t *words, const View *t, uint32_t another, Partners *counts) {
    static uint8_t out[16 * SLOTS];
    static uint16_t kept[WORDS];
    Answer listed[SLOTS];
    boltclover_size written = 0;
    int sound = boltclover_list(words, out, sizeof out, &written) == 0;
    const uint32_t others[] = {t->begin, 256, another};
    memcpy(kept, words, sizeof kept);
    if (!read_listing(listed, t, out, written)) return BAD_LISTING;
    for (uint32_t n = 0; sound && n < SLOTS; n++)
        if (is_present_defect(t, n) && !asked_rightly(words, t, sound, listed, n, counts)) return n;
    for (size_t i = 0; i < sizeof others / sizeof *others; i++)
        if (!asked_rightly(words, t, sound, listed, others[i], counts)) return others[i];
    return memcmp(kept, words, sizeof kept) ? TABLE_CHANGED : ALL_RIGHT;
}

long wrong_in_nest(Dice dice, const uint16_t *nest, uint32_t depth, Partners *counts) {
    static View t;
    uint16_t words[WORDS], side;
    uint8_t out[4096];
    boltclover_size written;
    long wrong = ALL_RIGHT;
    for (int i = 0; i < 6 && wrong == ALL_RIGHT; i++) {
        memcpy(words, nest, sizeof words);
        read_view(&t, words);
        uint32_t outermost = t.begin + depth - 1, touch = i ? roll(&dice, 2 * depth + 1) : 2 * depth;
        if (boltclover_virtual_conflict(words, outermost, touch, 7, 9, out, sizeof out, &written, &side)) return NEST_REFUSED;
        read_view(&t, words);
        wrong = wrong_partner(words, &t, outermost, counts);
    }
    return wrong;
}
