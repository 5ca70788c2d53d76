/* Preloaded before a program, this refuses its Nth allocation, N from the variable REFUSE_NTH, and each later one
   too where REFUSE_REST is set. It writes how many there were to the file that REFUSE_COUNT names, and how many blocks
   of them were never freed to the one that REFUSE_LIVE names. It refuses the Nth thread, N from REFUSE_THREAD. */
#define _GNU_SOURCE
#include <dlfcn.h>
#include <errno.h>
#include <pthread.h>
#include <sched.h>
#include <stdio.h>
#include <stdlib.h>
#include <sys/syscall.h>
#include <unistd.h>

/* The blocks that are in use, by their addresses; more than these places are not kept. */
#define PLACES (1ul << 20)

static unsigned long calls;
static unsigned long threads;
static void *blocks[PLACES];
static char busy;
/* What is asked for to tell the numbers is not the program's. */
static char is_over;

static void enter(void) {
    while (__atomic_test_and_set(&busy, __ATOMIC_ACQUIRE)) sched_yield();
}

static void leave(void) { __atomic_clear(&busy, __ATOMIC_RELEASE); }

/* The place where a block stands, or would stand: each is looked for from one that its address gives. */
static unsigned long place_of(void *block) {
    unsigned long place = ((unsigned long)block >> 4) * 0x9E3779B97F4A7C15ul >> 44;
    while (blocks[place] && blocks[place] != block) place = (place + 1) % PLACES;
    return place;
}

static void *taken(void *block) {
    if (block) {
        enter();
        blocks[place_of(block)] = block;
        leave();
    }
    return block;
}

/* A block leaves. Those behind it are laid down again, since one of them may stand where it is for this one. */
static void freed(void *block) {
    enter();
    unsigned long place = place_of(block);
    if (blocks[place]) {
        blocks[place] = 0;
        for (place = (place + 1) % PLACES; blocks[place]; place = (place + 1) % PLACES) {
            void *moved = blocks[place];
            blocks[place] = 0;
            blocks[place_of(moved)] = moved;
        }
    }
    leave();
}

static int refused(void) {
    const char *nth = getenv("REFUSE_NTH");
    unsigned long call = __atomic_add_fetch(&calls, 1, __ATOMIC_SEQ_CST);
    if (!nth || is_over) return 0;
    unsigned long n = strtoul(nth, 0, 10);
    return call == n || (getenv("REFUSE_REST") && call > n);
}

typedef int make_thread(pthread_t *, const pthread_attr_t *, void *(*)(void *), void *);

int pthread_create(pthread_t *made, const pthread_attr_t *attributes, void *(*begin)(void *), void *argument) {
    static make_thread *next;
    const char *nth = getenv("REFUSE_THREAD");
    if (!next) next = (make_thread *)dlsym(RTLD_NEXT, "pthread_create");
    if (nth && __atomic_add_fetch(&threads, 1, __ATOMIC_SEQ_CST) == strtoul(nth, 0, 10)) return EAGAIN;
    return next(made, attributes, begin, argument);
}

void *malloc(size_t size) {
    static void *(*next)(size_t);
    if (!next) next = (void *(*)(size_t))dlsym(RTLD_NEXT, "malloc");
    return refused() ? 0 : taken(next(size));
}

void *realloc(void *block, size_t size) {
    static void *(*next)(void *, size_t);
    if (!next) next = (void *(*)(void *, size_t))dlsym(RTLD_NEXT, "realloc");
    if (refused()) return 0;
    if (block) freed(block);
    void *moved = next(block, size);
    taken(moved ? moved : block);
    return moved;
}

void free(void *block) {
    static void (*next)(void *);
    if (!next) next = (void (*)(void *))dlsym(RTLD_NEXT, "free");
    if (block) freed(block);
    next(block);
}

void *aligned_alloc(size_t align, size_t size) {
    static void *(*next)(size_t, size_t);
    if (!next) next = (void *(*)(size_t, size_t))dlsym(RTLD_NEXT, "aligned_alloc");
    return refused() ? 0 : taken(next(align, size));
}

int posix_memalign(void **block, size_t align, size_t size) {
    static int (*next)(void **, size_t, size_t);
    if (!next) next = (int (*)(void **, size_t, size_t))dlsym(RTLD_NEXT, "posix_memalign");
    if (refused()) return 12;
    int answer = next(block, align, size);
    if (answer == 0) taken(*block);
    return answer;
}

static void tell(const char *name, unsigned long number) {
    const char *path = getenv(name);
    FILE *file = path ? fopen(path, "w") : 0;
    if (file) {
        fprintf(file, "%lu\n", number);
        fclose(file);
    }
}

__attribute__((destructor)) static void told(void) {
    unsigned long live = 0, made = calls;
    is_over = 1;
    for (unsigned long place = 0; place < PLACES; place++) live += blocks[place] != 0;
    tell("REFUSE_COUNT", made);
    tell("REFUSE_LIVE", live);
}

/* A program with threads may end so, and then no destructor runs. */
void _exit(int status) {
    told();
    syscall(SYS_exit_group, status);
    __builtin_unreachable();
}
