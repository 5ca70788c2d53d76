/* How a program on a bare processor writes and ends: by asking the simulator. */
#ifndef SUPPORT_H
#define SUPPORT_H

#include <stdint.h>

void say(const char *text);

/* A space, and a number to base 16. */
void say_number(uint64_t number);

__attribute__((noreturn)) void end(int is_right);

#endif
