/* What the C files of this repository need of <stddef.h>, for a compiler that comes without a C library's headers. */
#ifndef STD_STDDEF_H
#define STD_STDDEF_H
typedef __SIZE_TYPE__ size_t;
#define NULL ((void *)0)
#endif
