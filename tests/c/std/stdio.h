/* What the C files of this repository need of <stdio.h>. */
#ifndef STD_STDIO_H
#define STD_STDIO_H
#ifdef __cplusplus
extern "C"
#endif
int printf(const char *, ...);
#endif
