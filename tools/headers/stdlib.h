#ifndef HEADERS_STDLIB_H
#define HEADERS_STDLIB_H
#include <stddef.h>
void *malloc(size_t);
void free(void *);
void exit(int) __attribute__((noreturn));
#endif
