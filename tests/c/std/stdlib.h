/* What the C files of this repository need of <stdlib.h>. */
#ifndef STD_STDLIB_H
#define STD_STDLIB_H
#include <stddef.h>
void *malloc(size_t);
void *calloc(size_t, size_t);
void *realloc(void *, size_t);
void free(void *);
#endif
