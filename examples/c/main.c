/* Commissions simulated gear. The records and the gear live in files, so that the program can be
 * killed at any moment and run again. */
#define _POSIX_C_SOURCE 200809L

#include "controller.h"
#include "dali_c.h"
#include "gear.h"
#include "stop.h"
#include "store.h"

#include <fcntl.h>
#include <stdio.h>
#include <stdlib.h>
#include <string.h>
#include <sys/mman.h>
#include <sys/stat.h>
#include <unistd.h>

#define MOST_STEPS 1000000UL

enum exit_status {
    EXIT_ALL_FOUND = 0,
    EXIT_BLOCK_FULL = 1,
    EXIT_GAVE_UP = 2,
    EXIT_HALTED = 3,
    EXIT_MACHINE = 4,
    EXIT_RECORDS_FILE = 5,
    EXIT_GEAR_FILE = 6,
    EXIT_WORDS = 7
};

static const char usage[] =
    "commission RECORDS_FILE GEAR_FILE SEED [OPTION N]..\n"
    "commission --show GEAR_FILE\n"
    "\n"
    "Gives short addresses to simulated gear, and says how it ended, which gear are enrolled, and\n"
    "how many frames were sent. Both files are made where they are not there; SEED and --gear are\n"
    "read only for a new gear file. --show says of each gear its short and its random address.\n"
    "\n"
    "  --gear N           how many gear, at most 64 (8)\n"
    "  --first A          the first short address of the block (0)\n"
    "  --last B           the last one (63)\n"
    "  --survey N         begin by a survey, if N is 1, and ask first who is there (0)\n"
    "  --kill-after N     be killed at the Nth moment of the bus; a frame has two\n"
    "  --kill-in-store N  be killed at the Nth moment of the store; a record has four\n"
    "Of a million frames, how many\n"
    "  --destroyed N      are destroyed, so that each gear takes it or not\n"
    "  --lapsed N         are not sent, since the bus is lost\n"
    "  --lost N           have their answer lost\n"
    "  --damaged N        have their answer damaged\n"
    "  --joined N         have noise for an answer where nobody answers\n"
    "  --power N          find a gear that was without power for a moment\n"
    "\n"
    "Exit status: 0 all found, 1 block full, 2 gave up, 3 halted, 4 the machine refused a step or\n"
    "did not end, 5 the records file or 6 the gear file cannot be used, 7 a bad command line.\n";

struct words {
    const char *records_path;
    const char *gear_path;
    uint32_t seed;
    uint32_t gear_count;
    uint32_t first;
    uint32_t last;
    uint32_t survey;
    uint32_t kill_after;
    uint32_t kill_in_store;
    struct troubles troubles;
};

/* A decimal number, at most `most`. */
static int read_number(uint32_t *number, const char *word, uint32_t most)
{
    char *end;
    unsigned long long read = strtoull(word, &end, 10);

    *number = (uint32_t)read;
    return *word >= '0' && *word <= '9' && *end == 0 && read <= most;
}

static int read_option(struct words *words, const char *name, const char *value)
{
    struct troubles *troubles = &words->troubles;
    const struct {
        const char *name;
        uint32_t *number;
        uint32_t most;
    } options[] = {
        {"--gear", &words->gear_count, BUS_MOST_GEAR},
        {"--first", &words->first, DALI_ADDRESSES - 1},
        {"--last", &words->last, DALI_ADDRESSES - 1},
        {"--survey", &words->survey, 1},
        {"--kill-after", &words->kill_after, UINT32_MAX},
        {"--kill-in-store", &words->kill_in_store, UINT32_MAX},
        {"--destroyed", &troubles->destroyed, MILLION},
        {"--lapsed", &troubles->lapsed, MILLION},
        {"--lost", &troubles->lost, MILLION},
        {"--damaged", &troubles->damaged, MILLION},
        {"--joined", &troubles->joined, MILLION},
        {"--power", &troubles->power, MILLION},
    };

    for (size_t at = 0; at < sizeof options / sizeof options[0]; at++) {
        if (strcmp(name, options[at].name) == 0)
            return read_number(options[at].number, value, options[at].most);
    }
    return 0;
}

static int read_words(struct words *words, int count, char **given)
{
    memset(words, 0, sizeof *words);
    words->gear_count = 8;
    words->last = DALI_ADDRESSES - 1;
    if (count < 4 || count % 2 != 0 || !read_number(&words->seed, given[3], UINT32_MAX))
        return 0;
    words->records_path = given[1];
    words->gear_path = given[2];
    for (int at = 4; at < count; at += 2) {
        if (!read_option(words, given[at], given[at + 1]))
            return 0;
    }
    return 1;
}

/* The bus in a file, which keeps what the gear do also if this process is killed. NULL if it
 * cannot be mapped. */
static struct bus *bus_map(const char *path, int flags, int *is_new)
{
    struct stat stat;
    void *bus = MAP_FAILED;
    int file = open(path, flags, 0666);

    if (file < 0)
        return NULL;
    if (fstat(file, &stat) == 0) {
        *is_new = stat.st_size == 0;
        if (stat.st_size == sizeof(struct bus)
            || (*is_new && ftruncate(file, sizeof(struct bus)) == 0))
            bus = mmap(NULL, sizeof(struct bus), PROT_READ | PROT_WRITE, MAP_SHARED, file, 0);
    }
    close(file);
    return bus == MAP_FAILED ? NULL : bus;
}

static int show(const char *path)
{
    int is_new;
    const struct bus *bus = bus_map(path, O_RDWR, &is_new);

    if (bus == NULL) {
        perror(path);
        return EXIT_GEAR_FILE;
    }
    for (uint32_t at = 0; at < bus->gear_count; at++) {
        const struct gear *gear = &bus->gear[at];

        printf("gear %u random %06X short ", (unsigned)at, (unsigned)gear->random_address);
        if (gear->short_byte == GEAR_MASK)
            printf("-\n");
        else
            printf("%u\n", (unsigned)gear->short_byte / 2);
    }
    return 0;
}

/* A switch over an enum of the header has no default, so that the compiler tells what a later
 * header has and the switch has not. */
static int end_status(enum dali_end end)
{
    switch (end) {
    case DALI_ALL_FOUND:
        printf("all-found\n");
        return EXIT_ALL_FOUND;
    case DALI_BLOCK_FULL:
        printf("block-full\n");
        return EXIT_BLOCK_FULL;
    case DALI_GAVE_UP:
        printf("gave-up\n");
        return EXIT_GAVE_UP;
    }
    printf("unknown end\n");
    return EXIT_MACHINE;
}

static int fault_status(enum dali_fault fault)
{
    switch (fault) {
    case DALI_CONFLICT:
        printf("halt conflict\n");
        return EXIT_HALTED;
    case DALI_STORE:
        printf("halt store\n");
        return EXIT_HALTED;
    }
    printf("unknown fault\n");
    return EXIT_MACHINE;
}

static void print_table(const struct dali_machine *machine)
{
    struct dali_table table;

    if (dali_machine_table(machine, &table) != DALI_OK)
        return;
    for (int at = 0; at < table.count; at++) {
        const struct dali_random *random = &table.gear[at].random_address;

        printf("enrolled %u %02X%02X%02X\n", (unsigned)table.gear[at].short_address,
               (unsigned)random->high, (unsigned)random->middle, (unsigned)random->low);
    }
}

static int commission(const struct words *words, struct bus *bus, struct store *store,
                      const struct dali_records *records)
{
    struct dali_machine machine;
    struct dali_order order;
    uint8_t start = words->survey ? DALI_SURVEY : DALI_START;
    uint32_t frames = bus->frames;
    int status = EXIT_MACHINE;

    if (dali_machine_new(&machine, records) != DALI_OK)
        return status;
    stop_on_bus_at(words->kill_after);
    stop_in_store_at(words->kill_in_store);
    switch (controller_run(&machine, start, bus, store, MOST_STEPS, &order)) {
    case RUN_ENDED:
        status = order.kind == DALI_DONE ? end_status(order.reason) : fault_status(order.reason);
        break;
    case RUN_REFUSED:
        printf("refused\n");
        break;
    case RUN_TOO_LONG:
        printf("too-long\n");
        break;
    }
    print_table(&machine);
    printf("frames %u\n", (unsigned)(bus->frames - frames));
    return status;
}

int main(int count, char **given)
{
    static const char *const causes[] = {
        [STORE_FAILED] = "it cannot be opened, read or made safe",
        [STORE_DAMAGED] = "a record that is not the last one is damaged",
        [STORE_REFUSED] = "these are no records of a machine with this block",
    };
    struct words words;
    struct bus *bus;
    struct dali_records records;
    struct store store;
    enum store_status opened;
    int is_new;
    int status;

    if (count == 3 && strcmp(given[1], "--show") == 0)
        return show(given[2]);
    if (!read_words(&words, count, given)
        || dali_records_new(&records, (uint8_t)words.first, (uint8_t)words.last) != DALI_OK) {
        fputs(usage, stderr);
        return EXIT_WORDS;
    }
    bus = bus_map(words.gear_path, O_RDWR | O_CREAT, &is_new);
    if (bus == NULL) {
        perror(words.gear_path);
        return EXIT_GEAR_FILE;
    }
    if (is_new)
        bus_new(bus, words.seed, words.gear_count);
    bus->troubles = words.troubles;
    opened = store_open(&store, words.records_path, &records);
    if (opened != STORE_OPEN) {
        fprintf(stderr, "%s: %s\n", words.records_path, causes[opened]);
        return EXIT_RECORDS_FILE;
    }
    status = commission(&words, bus, &store, &records);
    store_close(&store);
    return status;
}
