#include "board.h"

#include <stdint.h>

#if defined(__aarch64__)

/* A PL011. */
void put_character(char c) {
    volatile uint32_t *const line = (volatile uint32_t *)0x09000000;
    while (line[6] & 32) continue; /* its queue is full */
    line[0] = (uint8_t)c;
}

_Noreturn void power_off(void) {
    register uint64_t call __asm__("x0") = 0x84000008; /* PSCI, SYSTEM_OFF */
    for (;;) __asm__ volatile("hvc #0" : "+r"(call) : : "memory");
}

#elif defined(__riscv)

/* A 16550. */
void put_character(char c) {
    volatile uint8_t *const line = (volatile uint8_t *)0x10000000;
    while (!(line[5] & 32)) continue; /* it is not empty */
    line[0] = (uint8_t)c;
}

_Noreturn void power_off(void) {
    for (;;) *(volatile uint32_t *)0x100000 = 0x5555; /* the board's switch */
}

#endif
