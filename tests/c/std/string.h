/* What the C files of this repository need of <string.h>. */
#ifndef STD_STRING_H
#define STD_STRING_H
#include <stddef.h>
int memcmp(const void *, const void *, size_t);
void *memcpy(void *, const void *, size_t);
void *memset(void *, int, size_t);
size_t strlen(const char *);
#endif
