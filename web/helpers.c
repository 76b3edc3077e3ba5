// Products of 128 bits, which LLVM calls by name on wasm64 (__multi3 of compiler-rt). Nothing proves it.
typedef unsigned long long u64;
typedef unsigned __int128 u128;
typedef union { u128 whole; struct { u64 low, high; }; } Halves;
u128 __multi3(u128 x, u128 y) {
    Halves a = {x}, b = {y}, product;
    u64 a0 = a.low & 0xffffffff, a1 = a.low >> 32, b0 = b.low & 0xffffffff, b1 = b.low >> 32;
    u64 first = a0 * b0, second = a1 * b0 + (first >> 32), third = a0 * b1 + (second & 0xffffffff);
    product.low = third << 32 | (first & 0xffffffff);
    product.high = a1 * b1 + (second >> 32) + (third >> 32) + a.low * b.high + a.high * b.low;
    return product.whole;
}
