/* What the library compiled for WebAssembly needs from outside: a product of two numbers of 128 bits, of which WebAssembly has no instruction. */
typedef unsigned long long word;

union wide {
    __int128 all;
    struct {
        word low, high;
    } half;
};

__int128 __multi3(__int128 a, __int128 b) {
    const union wide x = {a}, y = {b};
    const word mask = 0xffffffff;
    const word x_low = x.half.low & mask, x_high = x.half.low >> 32, y_low = y.half.low & mask, y_high = y.half.low >> 32;
    const word bottom = x_low * y_low, left = x_low * y_high, right = x_high * y_low;
    const word middle = (bottom >> 32) + (left & mask) + (right & mask);
    union wide product;
    product.half.low = (bottom & mask) | middle << 32;
    product.half.high = x_high * y_high + (left >> 32) + (right >> 32) + (middle >> 32) + x.half.high * y.half.low + x.half.low * y.half.high;
    return product.all;
}
