/* What the measured program takes of stdint.h, where a compiler comes without it. */
#ifndef STDINT_H
#define STDINT_H

typedef __UINT8_TYPE__ uint8_t;
typedef __UINT16_TYPE__ uint16_t;
typedef __INT32_TYPE__ int32_t;
typedef __UINT32_TYPE__ uint32_t;
typedef __UINT64_TYPE__ uint64_t;
typedef __UINTPTR_TYPE__ uintptr_t;

#define UINT8_MAX 0xFF
#define UINT32_C(number) number##U
#define UINT64_C(number) number##ULL

#endif
