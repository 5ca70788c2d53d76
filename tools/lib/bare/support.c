/* What a bare Arm processor begins with, and how a program on it writes and ends. */
#include "support.h"

#include <string.h>

enum { WRITE = 0x04, EXIT = 0x18, ENDED = 0x20026, FAILED = 0x20023 };

/* The stack of main, and of no call that is measured. */
static __attribute__((section(".bss.main_stack"))) uint64_t main_stack[64 * 1024 / 8];

__attribute__((noreturn)) void reset(void)
{
    int main(void);
    extern uint8_t zero_begin[], zero_end[];

    /* A watchdog that begins anew leaves the memory as it is. */
    memset(zero_begin, 0, (size_t)(zero_end - zero_begin));
#ifdef __ARM_FP
    /* The unit for floating point is off at first. */
    *(volatile uint32_t *)0xE000ED88 |= UINT32_C(0xF) << 20;
#endif
    end(main());
}

static __attribute__((noreturn)) void fault(void)
{
    say("fault\n");
    end(0);
}

/* The interrupt of the processor's timer, that of a watchdog, and those of the first devices, where a program has none of its own. */
__attribute__((weak)) void tick(void)
{
    fault();
}

__attribute__((weak)) void bark(void)
{
    fault();
}

__attribute__((weak)) void interrupt(void)
{
    fault();
}

#define EACH(number) [number] = (uintptr_t)fault

__attribute__((section(".vectors"), used)) static const uintptr_t vectors[18] = {
    [0] = (uintptr_t)(main_stack + sizeof main_stack / sizeof *main_stack),
    [1] = (uintptr_t)reset,
    [2] = (uintptr_t)bark,
    EACH(3), EACH(4), EACH(5), EACH(6), EACH(11), EACH(12), EACH(14),
    [15] = (uintptr_t)tick,
    [16] = (uintptr_t)interrupt,
    [17] = (uintptr_t)interrupt,
};

static void ask_host(uintptr_t what, uintptr_t argument)
{
    register uintptr_t first __asm__("r0") = what;
    register uintptr_t second __asm__("r1") = argument;

    __asm__ volatile("bkpt 0xAB" : "+r"(first) : "r"(second) : "memory");
}

void say(const char *text)
{
    ask_host(WRITE, (uintptr_t)text);
}

__attribute__((noreturn)) void end(int is_right)
{
    for (;;)
        ask_host(EXIT, is_right ? ENDED : FAILED);
}
