/* As stdint.h here. (The compiler's own copies by an instruction of WebAssembly, which has no library around it.) */
#ifndef FUOTA_STRING_H
#define FUOTA_STRING_H

#define memcpy __builtin_memcpy

#endif
