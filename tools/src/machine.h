/* A program without a C library, as a Linux process on any of the library's targets: tools/try-library links it with the toolchain's
   linker and runs it natively or by a user emulator. */
#ifndef MACHINE_H
#define MACHINE_H

#include <stddef.h>
#include <stdint.h>

int start(int count, char **words); /* the program; gives its exit status */

long read_from(int file, void *to, size_t room); /* the bytes read; 0 at the end, less where it fails */
long write_to(int file, const void *from, size_t count);
int open_to_read(const char *name); /* less than 0 where it fails */
_Noreturn void end_with(int status);

/* Calls `call` on another stack, whose top is given, aligned by 16. */
void call_on(void *top, void (*call)(void));

#endif
