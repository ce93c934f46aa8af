/* A heap for the library over the C library's. */
#include "heap.h"

#include <stdlib.h>

void *fuota_heap_take(size_t size) { return malloc(size); }

void *fuota_heap_resize(void *at, size_t size) { return realloc(at, size); }

void fuota_heap_give(void *at) { free(at); }
