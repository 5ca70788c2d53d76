/* The memory of the player in a browser, and what LLVM leaves to a library. A page makes an instance for each run, so memory is never
 * given back to it.
 *
 * A block has a power of two of bytes. Before it stands which one, and in a free block where the next free one of its size begins. */
#include <stdint.h>

#define HEAD 16
#define PAGE 65536
#define LEAST 4
#define MOST 30

/* What the library wants to hear: whether there is memory, and where. Rattle's pointers have eight bytes in memory. */
struct tried {
    uint64_t is_there;
    uint64_t at;
};

struct head {
    uint32_t power;
    struct head *next;
};

extern uint8_t __heap_base;

static struct head *unused[MOST + 1];
static uintptr_t end;
static uintptr_t limit = ~(uintptr_t)0;

static uint32_t power_of(uint64_t count)
{
    uint32_t power = LEAST;

    while (power <= MOST && (UINT64_C(1) << power) < count)
        power++;
    return power;
}

/* A block that nothing had before, or null. */
static struct head *taken(uint32_t power)
{
    uint64_t begin = end ? end : (uintptr_t)&__heap_base, wanted;
    struct head *block;

    begin = (begin + HEAD - 1) / HEAD * HEAD;
    wanted = begin + HEAD + (UINT64_C(1) << power);
    if (wanted > limit)
        return 0;
    uint64_t there = (uint64_t)__builtin_wasm_memory_size(0) * PAGE;
    if (wanted > there && __builtin_wasm_memory_grow(0, (wanted - there + PAGE - 1) / PAGE) == ~(uintptr_t)0)
        return 0;
    end = (uintptr_t)wanted;
    block = (struct head *)(uintptr_t)begin;
    block->power = power;
    return block;
}

/* From here on memory ends at this address: what lies behind it is refused. */
__attribute__((export_name("limit"))) void set_limit(uintptr_t address)
{
    limit = address;
}

/* Room for so many bytes, or null. */
__attribute__((export_name("room"))) void *room(uintptr_t count)
{
    uint32_t power = power_of(count);
    struct head *block = power > MOST ? 0 : unused[power];

    if (block)
        unused[power] = block->next;
    else if (power <= MOST)
        block = taken(power);
    return block ? (uint8_t *)block + HEAD : 0;
}

static struct tried tried(void *at, uint64_t aligned)
{
    return (struct tried){at != 0, at ? (uintptr_t)at : aligned};
}

struct tried rattle_alloc(uint64_t count, uint64_t aligned)
{
    return tried(aligned > HEAD || count > ~(uintptr_t)0 ? 0 : room((uintptr_t)count), aligned);
}

void rattle_dealloc(void *at)
{
    struct head *block = (struct head *)((uint8_t *)at - HEAD);

    block->next = unused[block->power];
    unused[block->power] = block;
}

struct tried rattle_realloc(void *at, uint64_t before, uint64_t count, uint64_t aligned)
{
    struct head *block = (struct head *)((uint8_t *)at - HEAD);

    if (count <= UINT64_C(1) << block->power)
        return tried(at, aligned);
    struct tried found = rattle_alloc(count, aligned);
    if (found.is_there) {
        __builtin_memcpy((void *)(uintptr_t)found.at, at, (uintptr_t)before);
        rattle_dealloc(at);
    }
    return found;
}

/* Shifts of a number of 128 bits, which LLVM leaves to a library. */
static unsigned __int128 joined(uint64_t high, uint64_t low)
{
    return (unsigned __int128)high << 64 | low;
}

unsigned __int128 __ashlti3(unsigned __int128 number, int by)
{
    uint64_t high = (uint64_t)(number >> 64), low = (uint64_t)number;

    return by >= 64 ? joined(low << (by - 64), 0) : by ? joined(high << by | low >> (64 - by), low << by) : number;
}

unsigned __int128 __lshrti3(unsigned __int128 number, int by)
{
    uint64_t high = (uint64_t)(number >> 64), low = (uint64_t)number;

    return by >= 64 ? high >> (by - 64) : by ? joined(high >> by, low >> by | high << (64 - by)) : number;
}
