/* Kills this process at a counted moment. */
#define _POSIX_C_SOURCE 200809L

#include "stop.h"

#include <signal.h>

static unsigned long left_on_bus;
static unsigned long left_in_store;

void stop_on_bus_at(unsigned long moment)
{
    left_on_bus = moment;
}

void stop_in_store_at(unsigned long moment)
{
    left_in_store = moment;
}

static void count_down(unsigned long *left)
{
    if (*left > 0 && --*left == 0)
        raise(SIGKILL);
}

void stop_on_bus(void)
{
    count_down(&left_on_bus);
}

void stop_in_store(void)
{
    count_down(&left_in_store);
}
