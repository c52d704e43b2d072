/* What the examples use of this header: the kit carries no C headers. x86-64. */
#ifndef KIT_STDINT_H
#define KIT_STDINT_H
typedef unsigned char uint8_t;
typedef unsigned short uint16_t;
typedef unsigned int uint32_t;
typedef unsigned long uint64_t;
#endif
