/* Stands before the heap of fuota.wasm, where the linker wraps it: it fails once so many blocks were asked for. */
#include "heap.h"

static uint32_t left = UINT32_MAX;

void *__real_fuota_heap_take(size_t size);
void *__real_fuota_heap_resize(void *at, size_t size);
void *__wrap_fuota_heap_take(size_t size);
void *__wrap_fuota_heap_resize(void *at, size_t size);
void fuota_heap_fails_after(uint32_t blocks);

void fuota_heap_fails_after(uint32_t blocks) { left = blocks; }

static int is_refused(void) {
    if (left == 0)
        return 1;
    left--;
    return 0;
}

void *__wrap_fuota_heap_take(size_t size) { return is_refused() ? NULL : __real_fuota_heap_take(size); }

void *__wrap_fuota_heap_resize(void *at, size_t size) { return is_refused() ? NULL : __real_fuota_heap_resize(at, size); }
