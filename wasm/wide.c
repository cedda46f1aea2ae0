// Numbers of 128 bits: what the compiler calls for them, which a page has no library for. Each is written on halves of 64 bits,
// so that none of them calls itself.

typedef unsigned long u64;
typedef unsigned __int128 u128;

static u64 low(u128 value) {
    return (u64)value;
}

static u64 high(u128 value) {
    return (u64)(value >> 64);
}

static u128 joined(u64 high, u64 low) {
    return (u128)high << 64 | low;
}

// The product of two numbers of 64 bits, by their halves of 32 bits.
static u128 product(u64 left, u64 right) {
    u64 mask = 0xffffffff;
    u64 left_low = left & mask, left_high = left >> 32, right_low = right & mask, right_high = right >> 32;
    u64 lowest = left_low * right_low;
    u64 middle = left_high * right_low + (lowest >> 32);
    u64 other = left_low * right_high + (middle & mask);
    return joined(left_high * right_high + (middle >> 32) + (other >> 32), other << 32 | (lowest & mask));
}

u128 __multi3(u128 left, u128 right) {
    u128 whole = product(low(left), low(right));
    return joined(high(whole) + low(left) * high(right) + high(left) * low(right), low(whole));
}

u128 __ashlti3(u128 value, int by) {
    if (by == 0)
        return value;
    if (by >= 64)
        return joined(low(value) << (by - 64), 0);
    return joined(high(value) << by | low(value) >> (64 - by), low(value) << by);
}

u128 __lshrti3(u128 value, int by) {
    if (by == 0)
        return value;
    if (by >= 64)
        return joined(0, high(value) >> (by - 64));
    return joined(high(value) >> by, high(value) << (64 - by) | low(value) >> by);
}
