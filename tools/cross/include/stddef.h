/* As stdint.h here. */
#ifndef FUOTA_STDDEF_H
#define FUOTA_STDDEF_H

typedef __SIZE_TYPE__ size_t;
#define NULL ((void *)0)

#endif
