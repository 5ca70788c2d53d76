/* What compilers and the library call of the C library, and how a number is written. Copies go by words where both ends allow
 * it, as those of common C libraries do: 16 bytes at a time, then 4, then each. */
#include "support.h"

#include <string.h>

void say_number(uint64_t number)
{
    char text[] = " 0x0000000000000000";

    for (size_t at = sizeof text - 2; at > 2; at--) {
        text[at] = "0123456789ABCDEF"[(uint32_t)number & 15];
        number >>= 4;
    }
    say(text);
}

/* What is copied at once. */
struct block {
    uint32_t words[4];
};

static int is_word(const void *at)
{
    return ((uintptr_t)at & 3) == 0;
}

void *memcpy(void *to, const void *from, size_t count)
{
    uint8_t *end_to = to;
    const uint8_t *end_from = from;

    if (((uintptr_t)to & 3) == ((uintptr_t)from & 3)) {
        for (; count > 0 && !is_word(end_to); count--)
            *end_to++ = *end_from++;
        for (; count >= 16; count -= 16, end_to += 16, end_from += 16)
            *(struct block *)end_to = *(const struct block *)end_from;
        for (; count >= 4; count -= 4, end_to += 4, end_from += 4)
            *(uint32_t *)end_to = *(const uint32_t *)end_from;
    }
    for (; count > 0; count--)
        *end_to++ = *end_from++;
    return to;
}

static void *copy_from_end(void *to, const void *from, size_t count)
{
    uint8_t *begin_to = (uint8_t *)to + count;
    const uint8_t *begin_from = (const uint8_t *)from + count;

    if (((uintptr_t)to & 3) == ((uintptr_t)from & 3)) {
        for (; count > 0 && !is_word(begin_to); count--)
            *--begin_to = *--begin_from;
        for (; count >= 4; count -= 4) {
            begin_to -= 4, begin_from -= 4;
            *(uint32_t *)begin_to = *(const uint32_t *)begin_from;
        }
    }
    for (; count > 0; count--)
        *--begin_to = *--begin_from;
    return to;
}

void *memmove(void *to, const void *from, size_t count)
{
    return (uintptr_t)to - (uintptr_t)from >= count ? memcpy(to, from, count) : copy_from_end(to, from, count);
}

void *memset(void *to, int byte, size_t count)
{
    uint32_t word = (uint8_t)byte * UINT32_C(0x01010101);
    uint8_t *end_to = to;

    for (; count > 0 && !is_word(end_to); count--)
        *end_to++ = (uint8_t)byte;
    for (; count >= 16; count -= 16, end_to += 16)
        *(struct block *)end_to = (struct block){{word, word, word, word}};
    for (; count >= 4; count -= 4, end_to += 4)
        *(uint32_t *)end_to = word;
    for (; count > 0; count--)
        *end_to++ = (uint8_t)byte;
    return to;
}

int memcmp(const void *one, const void *other, size_t count)
{
    const uint8_t *byte = one, *beside = other;

    for (; count > 0; count--, byte++, beside++)
        if (*byte != *beside)
            return *byte - *beside;
    return 0;
}

#ifdef __arm__
/* Of the run-time ABI for the Arm architecture. */
void *__aeabi_memcpy(void *to, const void *from, size_t count) __attribute__((alias("memcpy")));
void *__aeabi_memcpy4(void *to, const void *from, size_t count) __attribute__((alias("memcpy")));
void *__aeabi_memcpy8(void *to, const void *from, size_t count) __attribute__((alias("memcpy")));
void *__aeabi_memmove(void *to, const void *from, size_t count) __attribute__((alias("memmove")));
void *__aeabi_memmove4(void *to, const void *from, size_t count) __attribute__((alias("memmove")));
void *__aeabi_memmove8(void *to, const void *from, size_t count) __attribute__((alias("memmove")));
#endif
