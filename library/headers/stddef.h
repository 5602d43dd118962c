/* stddef.h - what the library's C names of it, for the toolchain's compiler, which has no headers. */
#ifndef STDDEF_H
#define STDDEF_H

#define NULL ((void *)0)
#define offsetof(type, member) __builtin_offsetof(type, member)

typedef __SIZE_TYPE__ size_t;
typedef __PTRDIFF_TYPE__ ptrdiff_t;

#endif
