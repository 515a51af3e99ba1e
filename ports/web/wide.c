// Arithmetic of 128 bits, which clang calls by these names and WebAssembly hasn't. Nothing proves this file;
// tests/wide_test.c compares it with gcc's.
#include "edge.h"

typedef __int128 i128;
typedef unsigned __int128 u128;

static u64 low_of(u128 value)
{
    return (u64)value;
}

// The upper half, and a whole of two halves, by memory: a shift of a value of 128 bits is a call of a function below.
static u64 high_of(u128 value)
{
    union { u128 all; u64 halves[2]; } parts = {value};
    return parts.halves[1];
}

static u128 of(u64 high, u64 low)
{
    union { u64 halves[2]; u128 all; } parts = {{low, high}};
    return parts.all;
}

i128 __ashlti3(i128 value, int count)
{
    u64 high = high_of(value), low = low_of(value);
    if (count & 64)
        return of(low << (count & 63), 0);
    return count ? of(high << count | low >> (64 - count), low << count) : (u128)value;
}

i128 __lshrti3(i128 value, int count)
{
    u64 high = high_of(value), low = low_of(value);
    if (count & 64)
        return of(0, high >> (count & 63));
    return count ? of(high >> count, low >> count | high << (64 - count)) : (u128)value;
}

i128 __ashrti3(i128 value, int count)
{
    i64 high = (i64)high_of(value);
    u64 low = low_of(value);
    if (count & 64)
        return of((u64)(high >> 63), (u64)(high >> (count & 63)));
    return count ? of((u64)(high >> count), low >> count | (u64)high << (64 - count)) : (u128)value;
}

// The product of two words by their halves: the middle sum has no carry, since (2^32 - 1)^2 + 2 (2^32 - 1) < 2^64.
static u128 product(u64 a, u64 b)
{
    u64 al = (u32)a, ah = a >> 32, bl = (u32)b, bh = b >> 32;
    u64 low = al * bl, first = ah * bl + (low >> 32), second = al * bh + (u32)first;
    return of(ah * bh + (first >> 32) + (second >> 32), second << 32 | (u32)low);
}

i128 __multi3(i128 a, i128 b)
{
    u128 whole = product(low_of(a), low_of(b));
    u64 crossed = low_of(a) * high_of(b) + high_of(a) * low_of(b);
    return of(high_of(whole) + crossed, low_of(whole));
}

struct divided {
    u128 quotient, rest;
};

// The quotient of high and low, as one number, by a divisor that is more than high; Knuth's algorithm D with two digits of
// 32 bits. The divisor's first bit is set by a shift of all, so that a digit that is guessed by its first 32 bits is at most
// 2 too large.
static u64 word_quotient(u64 high, u64 low, u64 divisor, u64 *rest)
{
    int shift = __builtin_clzll(divisor);
    u64 quotient = 0, digits[2] = {low << shift >> 32, (u32)(low << shift)};
    divisor <<= shift;
    high = shift ? high << shift | low >> (64 - shift) : high;
    for (int n = 0; n < 2; n++) {
        u64 digit = high / (divisor >> 32), left = high - digit * (divisor >> 32);
        while (digit >> 32 || digit * (u32)divisor > (left << 32 | digits[n])) {
            digit--;
            left += divisor >> 32;
            if (left >> 32)
                break;
        }
        high = (high << 32 | digits[n]) - digit * divisor;
        quotient = quotient << 32 | digit;
    }
    *rest = high >> shift;
    return quotient;
}

// The divisor has an upper half, so the quotient is a word: long division, a bit at a time.
static struct divided long_division(u128 number, u128 divisor)
{
    u64 nh = high_of(number), nl = low_of(number), dh = high_of(divisor), dl = low_of(divisor), quotient = 0;
    if (nh < dh)
        return (struct divided){0, number};
    int shift = __builtin_clzll(dh) - __builtin_clzll(nh);
    if (shift) {
        dh = dh << shift | dl >> (64 - shift);
        dl <<= shift;
    }
    for (; shift >= 0; shift--) {
        u64 is_less = nl < dl;
        quotient <<= 1;
        if (nh > dh || (nh == dh && !is_less)) {
            nh -= dh + is_less;
            nl -= dl;
            quotient |= 1;
        }
        dl = dl >> 1 | dh << 63;
        dh >>= 1;
    }
    return (struct divided){of(0, quotient), of(nh, nl)};
}

// The divisor isn't 0.
static struct divided divide(u128 number, u128 divisor)
{
    u64 high = high_of(number), low = low_of(number), by = low_of(divisor), rest = 0;
    if (high_of(divisor))
        return long_division(number, divisor);
    u64 first = high / by, left = high % by;
    if (!left)
        return (struct divided){of(first, low / by), of(0, low % by)};
    u64 second = word_quotient(left, low, by, &rest);
    return (struct divided){of(first, second), of(0, rest)};
}

u128 __udivti3(u128 a, u128 b)
{
    return divide(a, b).quotient;
}

u128 __umodti3(u128 a, u128 b)
{
    return divide(a, b).rest;
}

static u128 negated(u128 value)
{
    u64 low = low_of(value);
    return of(~high_of(value) + !low, -low);
}

static u128 size_of(i128 value)
{
    return (i64)high_of(value) < 0 ? negated(value) : (u128)value;
}

// Toward zero, as in C.
i128 __divti3(i128 a, i128 b)
{
    u128 quotient = divide(size_of(a), size_of(b)).quotient;
    return (i64)(high_of(a) ^ high_of(b)) < 0 ? negated(quotient) : quotient;
}

i128 __modti3(i128 a, i128 b)
{
    u128 rest = divide(size_of(a), size_of(b)).rest;
    return (i64)high_of(a) < 0 ? negated(rest) : rest;
}
