/* Numbers of 128 bits by numbers of 64 bits, by the names that LLVM calls them by on WebAssembly: the program reads the digits
 * of a fraction in a capture with them. */
#include <stdint.h>

typedef union {
    __int128 whole;
    struct {
        uint64_t low, high;
    } part;
} wide;

__int128 __multi3(__int128 a, __int128 b);
__int128 __ashlti3(__int128 a, int shift);
__int128 __lshrti3(__int128 a, int shift);
__int128 __ashrti3(__int128 a, int shift);

/* The product, without what is above 128 bits. */
__int128 __multi3(__int128 a, __int128 b) {
    wide x = {a}, y = {b}, sum;
    const uint64_t half = 0xFFFFFFFF;
    uint64_t low = (x.part.low & half) * (y.part.low & half);
    uint64_t right = (x.part.low >> 32) * (y.part.low & half) + (low >> 32);
    uint64_t left = (x.part.low & half) * (y.part.low >> 32) + (right & half);
    sum.part.low = left << 32 | (low & half);
    sum.part.high = (x.part.low >> 32) * (y.part.low >> 32) + (right >> 32) + (left >> 32)
        + x.part.high * y.part.low + x.part.low * y.part.high;
    return sum.whole;
}

/* Shifts by fewer than 128. */
__int128 __ashlti3(__int128 a, int shift) {
    wide x = {a}, y = {a};
    if (shift >= 64) {
        y.part.high = x.part.low << (shift - 64);
        y.part.low = 0;
    } else if (shift > 0) {
        y.part.high = x.part.high << shift | x.part.low >> (64 - shift);
        y.part.low = x.part.low << shift;
    }
    return y.whole;
}

static __int128 right(__int128 a, int shift, uint64_t above) {
    wide x = {a}, y = {a};
    if (shift >= 64) {
        y.part.low = shift == 64 ? x.part.high : x.part.high >> (shift - 64) | above << (128 - shift);
        y.part.high = above;
    } else if (shift > 0) {
        y.part.low = x.part.low >> shift | x.part.high << (64 - shift);
        y.part.high = x.part.high >> shift | above << (64 - shift);
    }
    return y.whole;
}

__int128 __lshrti3(__int128 a, int shift) { return right(a, shift, 0); }

__int128 __ashrti3(__int128 a, int shift) {
    wide x = {a};
    return right(a, shift, x.part.high >> 63 ? ~(uint64_t)0 : 0);
}
