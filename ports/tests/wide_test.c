// Compares web/wide.c with the arithmetic of 128 bits that gcc has, on numbers of all lengths: RANDOM numbers, and those
// beside powers of two. It prints how many it compared, and ends with 1 where one differs.
#include <stdio.h>
#include <stdint.h>

#define __multi3 wide_multi3
#define __ashlti3 wide_ashlti3
#define __lshrti3 wide_lshrti3
#define __ashrti3 wide_ashrti3
#define __udivti3 wide_udivti3
#define __umodti3 wide_umodti3
#define __divti3 wide_divti3
#define __modti3 wide_modti3
#include "../web/wide.c"

enum { RANDOM = 300000 };
static u64 state = 88172645463325252u, compared, wrong;

static u64 next(void)
{
    state ^= state << 13;
    state ^= state >> 7;
    return state ^= state << 17;
}

static u128 any(void)
{
    u128 value = (u128)next() << 64 | next();
    value >>= next() % 128;
    switch (next() % 8) {
    case 0: return (u128)1 << next() % 128;
    case 1: return ((u128)1 << next() % 128) - 1;
    case 2: return ~value;
    default: return value;
    }
}

static void compare(const char *name, u128 a, u128 b, u128 found, u128 due)
{
    compared++;
    if (found == due)
        return;
    wrong++;
    printf("%s of %016llx%016llx and %016llx%016llx\n", name, (u64)(a >> 64), (u64)a, (u64)(b >> 64), (u64)b);
}

int main(void)
{
    for (int n = 0; n < RANDOM; n++) {
        u128 a = any(), b = any();
        int count = (int)(next() % 128);
        compare("product", a, b, wide_multi3(a, b), a * b);
        compare("left", a, count, wide_ashlti3(a, count), a << count);
        compare("right", a, count, wide_lshrti3(a, count), a >> count);
        compare("signed right", a, count, wide_ashrti3(a, count), (i128)a >> count);
        if (!b)
            continue;
        compare("quotient", a, b, wide_udivti3(a, b), a / b);
        compare("rest", a, b, wide_umodti3(a, b), a % b);
        if ((i128)b == -1)
            continue;
        compare("signed quotient", a, b, wide_divti3(a, b), (i128)a / (i128)b);
        compare("signed rest", a, b, wide_modti3(a, b), (i128)a % (i128)b);
    }
    printf("wide_test: %llu compared, %llu wrong\n", compared, wrong);
    return wrong != 0;
}
