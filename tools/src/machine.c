#include "machine.h"

#define UNUSED __attribute__((unused)) /* but by the lines of assembler */

/* The process begins with its count of words, and then the words, on the stack. */
_Noreturn void begin_with(uintptr_t *stack);
_Noreturn void begin_with(uintptr_t *stack) { end_with(start((int)stack[0], (char **)(stack + 1))); }

#if defined(__x86_64__)

enum { READ = 0, WRITE = 1, EXIT = 60, OPEN_AT = 257 };

__attribute__((naked)) void _start(void) { __asm__("xor %ebp, %ebp\n mov %rsp, %rdi\n and $-16, %rsp\n call begin_with"); }

__attribute__((naked)) void call_on(UNUSED void *top, UNUSED void (*call)(void)) {
    __asm__("push %rbp\n mov %rsp, %rbp\n mov %rdi, %rsp\n call *%rsi\n mov %rbp, %rsp\n pop %rbp\n ret");
}

static long ask(long what, long a, long b, long c) {
    __asm__ volatile("syscall" : "+a"(what) : "D"(a), "S"(b), "d"(c) : "rcx", "r11", "memory");
    return what;
}

#elif defined(__aarch64__)

enum { READ = 63, WRITE = 64, EXIT = 93, OPEN_AT = 56 };

__attribute__((naked)) void _start(void) { __asm__("mov x0, sp\n bl begin_with"); }

__attribute__((naked)) void call_on(UNUSED void *top, UNUSED void (*call)(void)) {
    __asm__("stp x29, x30, [sp, #-16]!\n mov x29, sp\n mov sp, x0\n blr x1\n mov sp, x29\n ldp x29, x30, [sp], #16\n ret");
}

static long ask(long what, long a, long b, long c) {
    register long number __asm__("x8") = what, first __asm__("x0") = a, second __asm__("x1") = b, third __asm__("x2") = c;
    __asm__ volatile("svc 0" : "+r"(first) : "r"(number), "r"(second), "r"(third) : "memory");
    return first;
}

#elif defined(__riscv)

enum { READ = 63, WRITE = 64, EXIT = 93, OPEN_AT = 56 };

#if __riscv_xlen == 64
#define SAVE "sd"
#define LOAD "ld"
#else
#define SAVE "sw"
#define LOAD "lw"
#endif

/* gp is where linkers may have short ways from */
__attribute__((naked)) void _start(void) {
    __asm__(".option push\n .option norelax\n lla gp, __global_pointer$\n .option pop\n mv a0, sp\n andi sp, sp, -16\n call begin_with");
}

__attribute__((naked)) void call_on(UNUSED void *top, UNUSED void (*call)(void)) {
    __asm__("addi sp, sp, -16\n " SAVE " ra, 0(sp)\n " SAVE " s0, 8(sp)\n mv s0, sp\n mv sp, a0\n jalr a1\n mv sp, s0\n " LOAD " ra, 0(sp)\n " LOAD " s0, 8(sp)\n addi sp, sp, 16\n ret");
}

static long ask(long what, long a, long b, long c) {
    register long number __asm__("a7") = what, first __asm__("a0") = a, second __asm__("a1") = b, third __asm__("a2") = c;
    __asm__ volatile("ecall" : "+r"(first) : "r"(number), "r"(second), "r"(third) : "memory");
    return first;
}

#elif defined(__arm__) && __ARM_ARCH_PROFILE == 'M'

/* No process: the board mps2-an500, with reading and writing by the emulator's semihosting. Accesses that are not aligned are faults. */

__attribute__((naked)) void call_on(UNUSED void *top, UNUSED void (*call)(void)) {
    __asm__("push {r4, lr}\n mov r4, sp\n mov sp, r0\n blx r1\n mov sp, r4\n pop {r4, pc}");
}

static uint32_t ask(uint32_t what, const void *about) {
    register uint32_t first __asm__("r0") = what;
    register const void *second __asm__("r1") = about;
    __asm__ volatile("bkpt 0xab" : "+r"(first) : "r"(second) : "memory");
    return first;
}

enum { OPEN = 1, WRITE = 5, READ = 6, EXIT_EXTENDED = 32 };

static uint32_t handle(uint32_t file) { /* of standard input, output and error */
    static uint32_t handles[3];
    if (!handles[file]) {
        const uint32_t about[] = {(uint32_t)":tt", 4 * file, 3};
        handles[file] = ask(OPEN, about) + 1;
    }
    return handles[file] - 1;
}

/* These calls give the bytes that they left. */
long read_from(int file, void *to, size_t room) {
    const uint32_t about[] = {handle(file), (uint32_t)to, room};
    return (long)(room - ask(READ, about));
}
long write_to(int file, const void *from, size_t count) {
    const uint32_t about[] = {handle(file), (uint32_t)from, count};
    return (long)(count - ask(WRITE, about));
}
int open_to_read(UNUSED const char *name) { return -1; }

_Noreturn void end_with(int status) {
    const uint32_t about[] = {0x20026, (uint32_t)status};
    for (;;) ask(EXIT_EXTENDED, about);
}

static uint64_t own_stack[2048];

static void fault(void) {
    static const char words[] = "a fault of the processor\n";
    write_to(2, words, sizeof words - 1);
    end_with(3);
}

void _start(void) {
    *(volatile uint32_t *)0xe000ed14 |= 8; /* CCR, UNALIGN_TRP */
    uintptr_t none[] = {0, 0};
    begin_with(none);
}

/* Where the processor begins: its stack, its first instruction, and where faults lead. */
__attribute__((section(".vectors"), used)) static const struct {
    void *stack;
    void (*to[15])(void);
} vectors = {own_stack + 2048, {_start, fault, fault, fault, fault, fault, fault, fault, fault, fault, fault, fault, fault, fault, fault}};

#elif defined(__arm__)

enum { READ = 3, WRITE = 4, EXIT = 1, OPEN_AT = 322 };

__attribute__((naked)) void _start(void) { __asm__("mov r0, sp\n bl begin_with"); }

__attribute__((naked)) void call_on(UNUSED void *top, UNUSED void (*call)(void)) {
    __asm__("push {r4, lr}\n mov r4, sp\n mov sp, r0\n blx r1\n mov sp, r4\n pop {r4, pc}");
}

static long ask(long what, long a, long b, long c) {
    register long number __asm__("r7") = what, first __asm__("r0") = a, second __asm__("r1") = b, third __asm__("r2") = c;
    __asm__ volatile("svc 0" : "+r"(first) : "r"(number), "r"(second), "r"(third) : "memory");
    return first;
}

#else
#error "no such target"
#endif

#if !defined(__arm__) || __ARM_ARCH_PROFILE != 'M'

long read_from(int file, void *to, size_t room) { return ask(READ, file, (long)to, (long)room); }
long write_to(int file, const void *from, size_t count) { return ask(WRITE, file, (long)from, (long)count); }
int open_to_read(const char *name) { return (int)ask(OPEN_AT, -100, (long)name, 0); } /* -100: from the folder that the process is in */

_Noreturn void end_with(int status) {
    for (;;) ask(EXIT, status, 0, 0);
}

#endif
