/* What a bare RISC-V or 64-bit Arm processor begins with on the board `virt`, and how a program on it writes and ends. */
#include "support.h"

/* The stack of main, and of no call that is measured. */
static uint64_t main_stack[64 * 1024 / 8];

__attribute__((noreturn, used)) static void begin_main(void)
{
    int main(void);

    end(main());
}

/* A fault ends the program. */
__attribute__((noreturn, used, aligned(4))) static void fault(void)
{
    say("fault\n");
    end(0);
}

#ifdef __riscv
#define UART (*(volatile uint8_t *)0x10000000)
#define FINISHER (*(volatile uint32_t *)0x100000)

enum { ENDED = 0x5555, FAILED = 0x13333 };

__attribute__((naked, section(".begin"), used)) void reset(void)
{
    __asm__ volatile(".option arch, +zicsr\n"
                     "la sp, %0\n"
                     "la t0, fault\n"
                     "csrw mtvec, t0\n"
                     "call begin_main\n"
                     :
                     : "i"(main_stack + sizeof main_stack / sizeof *main_stack));
}

__attribute__((noreturn)) void end(int is_right)
{
    for (;;)
        FINISHER = is_right ? ENDED : FAILED;
}
#else
#define UART (*(volatile uint8_t *)0x09000000)

enum { EXIT = 0x18, ENDED = 0x20026 };

/* Vector registers are on, and the first counter of events counts instructions. */
__attribute__((naked, section(".begin"), used)) void reset(void)
{
    __asm__ volatile("ldr x0, =%0\n"
                     "mov sp, x0\n"
                     "mov x0, #0x300000\n"
                     "msr cpacr_el1, x0\n"
                     "mov x0, #8\n"
                     "msr pmevtyper0_el0, x0\n"
                     "mov x0, #1\n"
                     "msr pmcntenset_el0, x0\n"
                     "msr pmcr_el0, x0\n"
                     "isb\n"
                     "bl begin_main\n"
                     ".ltorg\n"
                     :
                     : "i"(main_stack + sizeof main_stack / sizeof *main_stack));
}

__attribute__((noreturn)) void end(int is_right)
{
    static uint64_t block[2];

    block[0] = ENDED;
    block[1] = !is_right;
    for (;;) {
        register uint64_t x0 __asm__("x0") = EXIT;
        register uint64_t x1 __asm__("x1") = (uint64_t)block;

        __asm__ volatile("hlt #0xF000" : : "r"(x0), "r"(x1) : "memory");
    }
}
#endif

void say(const char *text)
{
    for (; *text != 0; text++)
        UART = (uint8_t)*text;
}
