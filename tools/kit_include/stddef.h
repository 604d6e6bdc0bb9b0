/* C's headers as far as the C programs here use them, for x86-64 Linux: the kit has a compiler and a C library, and no headers. */
#ifndef KIT_STDDEF_H
#define KIT_STDDEF_H
typedef unsigned long size_t;
#define NULL ((void *)0)
#endif
