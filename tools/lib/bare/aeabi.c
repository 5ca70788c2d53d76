/* What compilers for Arm call by themselves: of the run-time ABI for the Arm architecture, what is not a further name of a call in memory.c. */
#include <stdint.h>
#include <string.h>

void __aeabi_memset(void *to, size_t count, int byte)
{
    memset(to, byte, count);
}

void __aeabi_memclr(void *to, size_t count)
{
    memset(to, 0, count);
}

void __aeabi_memset4(void *to, size_t count, int byte) __attribute__((alias("__aeabi_memset")));
void __aeabi_memset8(void *to, size_t count, int byte) __attribute__((alias("__aeabi_memset")));
void __aeabi_memclr4(void *to, size_t count) __attribute__((alias("__aeabi_memclr")));
void __aeabi_memclr8(void *to, size_t count) __attribute__((alias("__aeabi_memclr")));

/* By additions: what is written as four products of halves is made one call of this again. */
uint64_t __aeabi_lmul(uint64_t one, uint64_t other)
{
    uint64_t product = 0;

    for (; one != 0; one >>= 1, other += other)
        product += one & 1 ? other : 0;
    return product;
}

/* By halves: what is written as a shift of both is made one call of this again. */
uint64_t __aeabi_llsl(uint64_t number, int count)
{
    uint32_t low = (uint32_t)number, high = (uint32_t)(number >> 32);

    if (count >= 32)
        return (uint64_t)(low << (count - 32)) << 32;
    if (count > 0)
        high = high << count | low >> (32 - count);
    return (uint64_t)high << 32 | low << count;
}

uint64_t __aeabi_llsr(uint64_t number, int count)
{
    uint32_t low = (uint32_t)number, high = (uint32_t)(number >> 32);

    if (count >= 32)
        return high >> (count - 32);
    if (count > 0)
        low = low >> count | high << (32 - count);
    return (uint64_t)(high >> count) << 32 | low;
}

/* The quotient, and the rest in the upper half. */
uint64_t __aeabi_uidivmod(uint32_t number, uint32_t divisor)
{
    uint32_t quotient = 0, rest = 0;

    for (int bit = 31; bit >= 0; bit--) {
        rest = rest << 1 | (number >> bit & 1);
        if (rest >= divisor) {
            rest -= divisor;
            quotient |= UINT32_C(1) << bit;
        }
    }
    return (uint64_t)rest << 32 | quotient;
}

uint32_t __aeabi_uidiv(uint32_t number, uint32_t divisor)
{
    return (uint32_t)__aeabi_uidivmod(number, divisor);
}
