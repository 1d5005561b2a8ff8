/* The emulator's board "virt": its serial line, and its switch. */
#ifndef BOARD_H
#define BOARD_H

void put_character(char c);
_Noreturn void power_off(void);

/* Called by start-*.S: when all is ready, and where the processor meets a fault. */
_Noreturn void serve(void);
_Noreturn void fault(void);

#endif
