/* stdint.h - what the library's C names of it, for the toolchain's compiler, which has no headers. */
#ifndef STDINT_H
#define STDINT_H

#define UINT32_MAX __UINT32_MAX__

typedef __UINT8_TYPE__ uint8_t;
typedef __UINT16_TYPE__ uint16_t;
typedef __INT32_TYPE__ int32_t;
typedef __UINT32_TYPE__ uint32_t;
typedef __UINT64_TYPE__ uint64_t;

#endif
