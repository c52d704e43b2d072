/* What the examples use of this header: the kit carries no C headers. glibc. */
#ifndef KIT_STDIO_H
#define KIT_STDIO_H
#include <stddef.h>
typedef struct _IO_FILE FILE;
extern FILE *stdout, *stderr;
FILE *fopen(const char *name, const char *mode);
size_t fwrite(const void *from, size_t size, size_t n, FILE *f);
int fclose(FILE *f);
int fputs(const char *s, FILE *f);
int puts(const char *s);
int putchar(int c);
int printf(const char *format, ...);
int fprintf(FILE *f, const char *format, ...);
#endif
