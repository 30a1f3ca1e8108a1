/* What the C files of this repository need of <unistd.h>. */
#ifndef STD_UNISTD_H
#define STD_UNISTD_H
#include <stddef.h>
typedef __PTRDIFF_TYPE__ ssize_t;
ssize_t read(int, void *, size_t);
ssize_t write(int, const void *, size_t);
#endif
