/* What the examples use of this header: the kit carries no C headers. */
#ifndef KIT_STRING_H
#define KIT_STRING_H
#include <stddef.h>
size_t strlen(const char *s);
char *strcat(char *to, const char *from);
int memcmp(const void *a, const void *b, size_t n);
#endif
