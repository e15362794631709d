/* What clang calls by itself for WebAssembly: the product of two numbers of 128 bits. */
typedef __UINT64_TYPE__ u64;
typedef unsigned __int128 u128;

/* The product of two numbers of 64 bits, of their halves. */
static u128 wide_product(u64 left, u64 right) {
    const u64 half = 0xffffffff;
    u64 low = (left & half) * (right & half);
    u64 middle = (left >> 32) * (right & half) + (low >> 32);
    u64 other = (left & half) * (right >> 32) + (middle & half);
    u64 high = (left >> 32) * (right >> 32) + (middle >> 32) + (other >> 32);
    return (u128)high << 64 | other << 32 | (low & half);
}

u128 __multi3(u128 left, u128 right) {
    u64 a = (u64)left, b = (u64)right;
    u64 crossed = (u64)(left >> 64) * b + a * (u64)(right >> 64);
    return wide_product(a, b) + ((u128)crossed << 64);
}
