/* The calls of string.h that compilers and the library want. */
#ifndef STRING_H
#define STRING_H

typedef __SIZE_TYPE__ size_t;

void *memcpy(void *to, const void *from, size_t count);
void *memmove(void *to, const void *from, size_t count);
void *memset(void *to, int byte, size_t count);
int memcmp(const void *one, const void *other, size_t count);

#endif
