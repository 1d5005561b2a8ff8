/* The two functions of a C library that the library may want, for a target without one. Weak: where the program has its own, they are
   taken. In the simplest form: a call fills or copies some hundred bytes. */
#include <stddef.h>

__attribute__((weak)) void *memset(void *to, int value, size_t count) {
    unsigned char *at = to;
    for (; count > 0; count--) *at++ = (unsigned char)value;
    return to;
}

__attribute__((weak)) void *memcpy(void *restrict to, const void *restrict from, size_t count) {
    unsigned char *at = to;
    const unsigned char *byte = from;
    for (; count > 0; count--) *at++ = *byte++;
    return to;
}
