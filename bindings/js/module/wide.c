/* What the compiler calls for numbers of 128 bits, where WebAssembly has no instruction: by halves of 64 bits. */
typedef unsigned long long word;
typedef __int128 wide;

typedef union {
    wide all;
    struct {
        word low, high;
    } in;
} halves;

/* The product of two numbers of 64 bits, most of which have less than 32. */
static halves product(word a, word b) {
    if (((a | b) >> 32) == 0)
        return (halves){.in = {a * b, 0}};
    const word low_half = 0xffffffff;
    word lows = (a & low_half) * (b & low_half);
    word cross = (a >> 32) * (b & low_half) + (lows >> 32); /* at most 2^64 - 2^32: it doesn't wrap */
    word other = (a & low_half) * (b >> 32) + (cross & low_half);
    halves result;
    result.in.low = (other << 32) | (lows & low_half);
    result.in.high = (a >> 32) * (b >> 32) + (cross >> 32) + (other >> 32);
    return result;
}

wide __multi3(wide left, wide right) {
    halves a = {left}, b = {right};
    halves result = product(a.in.low, b.in.low);
    result.in.high += a.in.high * b.in.low + a.in.low * b.in.high;
    return result.all;
}

/* The two shifts are by 0 to 127 bits. */
wide __ashlti3(wide number, int bits) {
    halves a = {number}, result = {number};
    if (bits >= 64) {
        result.in.low = 0;
        result.in.high = a.in.low << (bits - 64);
    } else if (bits > 0) {
        result.in.low = a.in.low << bits;
        result.in.high = (a.in.high << bits) | (a.in.low >> (64 - bits));
    }
    return result.all;
}

wide __lshrti3(wide number, int bits) {
    halves a = {number}, result = {number};
    if (bits >= 64) {
        result.in.high = 0;
        result.in.low = a.in.high >> (bits - 64);
    } else if (bits > 0) {
        result.in.high = a.in.high >> bits;
        result.in.low = (a.in.low >> bits) | (a.in.high << (64 - bits));
    }
    return result.all;
}
