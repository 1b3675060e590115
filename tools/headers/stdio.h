#ifndef HEADERS_STDIO_H
#define HEADERS_STDIO_H
#include <stddef.h>
#define EOF (-1)
typedef struct a_file FILE;
FILE *fopen(const char *, const char *);
int fclose(FILE *);
size_t fread(void *, size_t, size_t, FILE *);
int getchar(void);
int putchar(int);
int printf(const char *, ...) __attribute__((format(printf, 1, 2)));
#endif
