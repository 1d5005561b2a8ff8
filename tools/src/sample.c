/* Writes tapes and the original's answers to them, for the crate `test_tapes`.
     sample ORIGINAL DIR
   Each tape holds requests that 01 accepts, of one plan and one begin, with resets between shots. DIR gets NAME.tape and
   NAME.tape.answers; the cases for the crate's `stdin` go to standard output. Exit status: 0 all written, 1 the original stops within
   a tape, 2 a wrong call, ORIGINAL does not run, or DIR cannot be written to. */
#include <errno.h>
#include <stdio.h>
#include <stdlib.h>
#include <string.h>

#include "judge.h"
#include "original.h"
#include "port.h"
#include "progress.h"
#include "shots.h"
#include "view.h"

enum { TAPES = 20, MOST = 59000 }; /* the bytes of a tape and of its answers: a run in 65,536 bytes then ends with the tape */

/* The port only carries the table along, so that the next requests can be made up; what it says is thrown away but for its size. Each
   request goes on two tapes: exact for the original, and on every other expansion padded for the one that is stored. */
static void make_tapes(Bytes *tape, Bytes *stored, Shot first) {
    static View t;
    uint16_t words[WORDS];
    uint8_t out[8192], record[LONGEST_REQUEST];
    size_t answers = 0, expansions = 0;
    boltclover_size written;
    uint16_t side;
    int at_side;
    Shot shot = first;
    boltclover_make(words, shot.begin);
    for (uint32_t step = 1; stored->length < MOST && answers < MOST - 4096; step++) {
        read_view(&t, words);
        Request r = chance(&shot.dice, 1, 10) ? wild_request(&shot, &t) : next_request(&shot, &t);
        if (step % first.length == 0) {
            Dice dice = shot.dice;
            r = (Request){.kind = RESET}, shot = first, shot.dice = dice;
        }
        if (refusal_of(&t, &r, sizeof out, &at_side) || call_port(words, &r, out, sizeof out, &written, &side)) continue;
        append(tape, record, write_request(record, &r));
        append(stored, record, r.kind == EXPANSION && expansions++ % 2 == 0 ? write_padded(record, &r) : write_request(record, &r));
        answers += written + 8;
    }
}

static void save(const char *folder, const char *name, const char *ending, const Bytes *bytes) {
    char path[1000];
    snprintf(path, sizeof path, "%s/%s.%s", folder, name, ending);
    FILE *file = fopen(path, "wb");
    if (!file || fwrite(bytes->bytes, 1, bytes->length, file) != bytes->length || fclose(file)) {
        int why = errno;
        end_progress();
        fprintf(stderr, "%s cannot be written: %s\n", path, strerror(why));
        exit(2);
    }
}

int main(int argc, char **argv) {
    if (argc < 3) return fprintf(stderr, "sample ORIGINAL DIR\n"), 2;
    static Bytes tape, stored, answers;
    uint32_t number = 256; /* past the short shots */
    for (int i = 0; i < TAPES; i++) {
        Shot shot;
        do shot = new_shot(7, number++);
        while (shot.plan != (Plan)(i % PLANS));
        tape.length = stored.length = answers.length = 0;
        make_tapes(&tape, &stored, shot);
        char name[40], begin[8];
        snprintf(name, sizeof name, "%s-%d", plan_names[shot.plan], i / PLANS + 1);
        for (char *c = name; *c; c++) *c = *c == ' ' ? '-' : *c;
        snprintf(begin, sizeof begin, "%u", shot.begin);
        int status = run_on_tape(argv[1], begin, &tape, &answers);
        if (status) return end_progress(), fprintf(stderr, "the original, %s, stops within the tape %s, after %zu bytes of answers: status %d\n", argv[1], name, answers.length, status), 1;
        save(argv[2], name, "tape", &stored);
        save(argv[2], name, "tape.answers", &answers);
        printf("%s.tape: |%03u %s.tape.answers|\n", name, shot.begin, name);
        progress(i + 1, TAPES, "tapes written");
    }
    end_progress();
    return 0;
}
