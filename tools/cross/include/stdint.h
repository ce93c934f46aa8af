/* Of C's header, what c/ takes where the library itself is compiled: the toolchain's clang comes without headers. */
#ifndef FUOTA_STDINT_H
#define FUOTA_STDINT_H

typedef __UINT8_TYPE__ uint8_t;
typedef __UINT16_TYPE__ uint16_t;
typedef __UINT32_TYPE__ uint32_t;
typedef __UINT64_TYPE__ uint64_t;

#define UINT32_MAX 0xFFFFFFFFu

#endif
