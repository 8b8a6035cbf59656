/* What a bare board needs before `main`, for Cortex-M and 32-bit RISC-V: the vector table, memory as C wants it, and output by semihosting, the way in
 * which a program speaks through a debugger or an emulator. */
#include "board.h"

extern uint32_t data_image[], data_begin[], data_end[], bss_begin[], bss_end[], stack_top[];
int main(void);

/* Asks the debugger for a service. */
static uintptr_t ask(uintptr_t service, const void *words)
{
#if defined __arm__
    register uintptr_t r0 __asm__("r0") = service;
    register const void *r1 __asm__("r1") = words;
    __asm__ volatile("bkpt 0xab" : "+r"(r0) : "r"(r1) : "memory");
    return r0;
#else
    register uintptr_t a0 __asm__("a0") = service;
    register const void *a1 __asm__("a1") = words;
    __asm__ volatile(".option push\n.option norvc\n.balign 16\nslli x0, x0, 0x1f\nebreak\nsrai x0, x0, 7\n.option pop" : "+r"(a0) : "r"(a1) : "memory");
    return a0;
#endif
}

enum { SYS_OPEN = 1, SYS_WRITE = 5, SYS_EXIT_EXTENDED = 0x20, MODE_WRITE = 4, ADP_STOPPED_APPLICATION_EXIT = 0x20026 };

void board_write(const char *bytes, size_t count)
{
    static uintptr_t output;
    static const char console[] = ":tt";
    if (output == 0) {
        const uintptr_t words[] = {(uintptr_t)console, MODE_WRITE, sizeof console - 1};
        output = ask(SYS_OPEN, words);
    }
    const uintptr_t words[] = {output, (uintptr_t)bytes, count};
    ask(SYS_WRITE, words);
}

static void leave(int status)
{
    const uintptr_t words[] = {ADP_STOPPED_APPLICATION_EXIT, (uintptr_t)status};
    ask(SYS_EXIT_EXTENDED, words);
    for (;;)
        ;
}

__attribute__((used)) static void run(void)
{
    uint32_t *from = data_image;
    for (uint32_t *to = data_begin; to != data_end; to++)
        *to = *from++;
    for (uint32_t *to = bss_begin; to != bss_end; to++)
        *to = 0;
    leave(main());
}

__attribute__((used)) static void fault(void)
{
    static const char words[] = "fault\n";
    board_write(words, sizeof words - 1);
    leave(1);
}

#if defined __arm__
void reset(void)
{
    run();
}

/* The stack, reset, NMI, the faults; nothing else is switched on here. */
__attribute__((section(".vectors"), used)) static const void *const vectors[16] = {
    stack_top, (void *)reset, (void *)fault, (void *)fault, (void *)fault, (void *)fault, (void *)fault,
};

__attribute__((naked)) void board_call(void (*call)(void), void *top)
{
    __asm__("push {r4, lr}\nmov r4, sp\nmov sp, r1\nblx r0\nmov sp, r4\npop {r4, pc}");
}
#else
__attribute__((naked, section(".vectors"), used)) void reset(void)
{
    __asm__("la sp, stack_top\nj run");
}

__attribute__((naked)) void board_call(void (*call)(void), void *top)
{
    __asm__("addi sp, sp, -16\nsw ra, 12(sp)\nsw s0, 8(sp)\nmv s0, sp\nmv sp, a1\njalr a0\nmv sp, s0\nlw s0, 8(sp)\nlw ra, 12(sp)\naddi sp, sp, 16\nret");
}
#endif
