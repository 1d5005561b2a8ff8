/* The original, run as a program on tables and requests, and on whole tapes. */
#ifndef ORIGINAL_H
#define ORIGINAL_H

#include <stddef.h>
#include <stdint.h>

typedef struct {
    uint8_t *bytes;
    size_t length, room;
} Bytes;

void make_room(Bytes *to, size_t length); /* for so many bytes more */
void append(Bytes *to, const void *from, size_t length);

/* Runs PROGRAM WORD with this input and appends what it writes; gives its exit status, or 128 and the signal that ended it. A program
   that cannot be started, or that answers nothing at all to some input, is no original: the tool then says so and ends with status 2. */
int run_program(const char *program, const char *word, const Bytes *input, Bytes *output);

/* The same with a tape, and begin as the word. The original knows no refusals, and so no sides: its program ends each request by a record
   19 of length 4, with 0. It comes back as the rules have it now, of length 6, with side 0. */
int run_on_tape(const char *program, const char *begin, const Bytes *tape, Bytes *answers);

#endif
