/* What the C files of this repository need of <stdbool.h>. */
#ifndef STD_STDBOOL_H
#define STD_STDBOOL_H
#ifndef __cplusplus
#define bool _Bool
#define true 1
#define false 0
#endif
#endif
