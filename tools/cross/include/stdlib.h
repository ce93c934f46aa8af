/* As stdint.h here. */
#ifndef FUOTA_STDLIB_H
#define FUOTA_STDLIB_H

#include <stddef.h>

void *malloc(size_t size);
void *realloc(void *at, size_t size);
void free(void *at);

#endif
