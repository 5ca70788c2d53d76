/* What a program for Linux begins with, and how it writes and ends, without a C library: as qemu runs it for another
 * processor. */
#include "support.h"

#include <string.h>

#if defined(__x86_64__)
enum { WRITE = 1, EXIT = 60 };
#define BEGIN "xor %ebp, %ebp\nand $-16, %rsp\ncall begin_main\n"
#define SYSTEM_CALL(first, second, third, number)                                                                      \
    __asm__ volatile("syscall" : "+a"(number) : "D"(first), "S"(second), "d"(third) : "rcx", "r11", "memory")
#elif defined(__aarch64__)
enum { WRITE = 64, EXIT = 93 };
#define BEGIN "bl begin_main\n"
#define SYSTEM_CALL(first, second, third, number)                                                                      \
    register uintptr_t x0 __asm__("x0") = first;                                                                       \
    register uintptr_t x1 __asm__("x1") = second;                                                                      \
    register uintptr_t x2 __asm__("x2") = third;                                                                       \
    register uintptr_t x8 __asm__("x8") = number;                                                                      \
    __asm__ volatile("svc 0" : "+r"(x0) : "r"(x1), "r"(x2), "r"(x8) : "memory")
#elif defined(__riscv)
enum { WRITE = 64, EXIT = 93 };
#define BEGIN "call begin_main\n"
#define SYSTEM_CALL(first, second, third, number)                                                                      \
    register uintptr_t a0 __asm__("a0") = first;                                                                       \
    register uintptr_t a1 __asm__("a1") = second;                                                                      \
    register uintptr_t a2 __asm__("a2") = third;                                                                       \
    register uintptr_t a7 __asm__("a7") = number;                                                                      \
    __asm__ volatile("ecall" : "+r"(a0) : "r"(a1), "r"(a2), "r"(a7) : "memory")
#endif

__asm__(".globl begin\nbegin:\n" BEGIN);

static void ask_system(uintptr_t number, uintptr_t first, uintptr_t second, uintptr_t third)
{
    SYSTEM_CALL(first, second, third, number);
}

__attribute__((noreturn, used)) void begin_main(void)
{
    int main(void);

    end(main());
}

void say(const char *text)
{
    size_t count = 0;

    while (text[count] != 0)
        count++;
    ask_system(WRITE, 1, (uintptr_t)text, count);
}

__attribute__((noreturn)) void end(int is_right)
{
    for (;;)
        ask_system(EXIT, !is_right, 0, 0);
}

#if defined(__riscv)
/* What compilers call for shifts of 64 bits. By halves: what is written as a shift of both is made one call of this again. */

uint64_t __ashldi3(uint64_t number, int count)
{
    uint32_t low = (uint32_t)number, high = (uint32_t)(number >> 32);

    if (count >= 32)
        return (uint64_t)(low << (count - 32)) << 32;
    if (count > 0)
        high = high << count | low >> (32 - count);
    return (uint64_t)high << 32 | low << count;
}

uint64_t __lshrdi3(uint64_t number, int count)
{
    uint32_t low = (uint32_t)number, high = (uint32_t)(number >> 32);

    if (count >= 32)
        return high >> (count - 32);
    if (count > 0)
        low = low >> count | high << (32 - count);
    return (uint64_t)(high >> count) << 32 | low;
}
#endif
