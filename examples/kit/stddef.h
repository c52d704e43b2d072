/* What the examples use of this header: the kit carries no C headers. x86-64. */
#ifndef KIT_STDDEF_H
#define KIT_STDDEF_H
typedef unsigned long size_t;
#define NULL ((void *)0)
#endif
