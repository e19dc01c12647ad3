/* tools/c/float.c against the host's floating point, which rounds as it does: numbers by chance, and pairs of some that are special. Words: how many of
   each operation, and the first seed. */
#include <math.h>
#include <stdio.h>
#include <stdlib.h>
#include <string.h>
#include "float.c"

static uint64_t state = 88172645463325252ull;
static uint64_t any(void) { state ^= state << 13; state ^= state >> 7; state ^= state << 17; return state * 2685821657736338717ull; }
static float f32(uint32_t a) { float f; memcpy(&f, &a, 4); return f; }
static double f64(uint64_t a) { double f; memcpy(&f, &a, 8); return f; }
static uint32_t b32(float f) { uint32_t a; memcpy(&a, &f, 4); return a; }
static uint64_t b64(double f) { uint64_t a; memcpy(&a, &f, 8); return a; }

static const uint32_t special32[] = {0, 1, 2, 0x7FFFFF, 0x800000, 0x800001, 0x3F800000, 0x3F7FFFFF, 0x3F800001, 0x40000000, 0x4B000000, 0x4B800000, 0x4F000000, 0x5F000000, 0x7F7FFFFF, 0x7F800000, 0x7FC00000, 0x7FA00000, 0x3F000000, 0x3EFFFFFF, 0x40200000};
static const uint64_t special64[] = {0, 1, 2, 0xFFFFFFFFFFFFFull, 1ull << 52, (1ull << 52) + 1, 0x3FF0000000000000ull, 0x3FEFFFFFFFFFFFFFull, 0x3FF0000000000001ull, 0x4000000000000000ull, 0x4330000000000000ull, 0x4340000000000000ull, 0x41E0000000000000ull, 0x43E0000000000000ull, 0x7FEFFFFFFFFFFFFFull, 0x7FF0000000000000ull, 0x7FF8000000000000ull, 0x7FF4000000000000ull, 0x3FE0000000000000ull, 0x47EFFFFFE0000000ull, 0x47EFFFFFF0000000ull, 0x36A0000000000000ull, 0x3690000000000000ull, 0x380FFFFFFFFFFFFFull, 0x4004000000000000ull};

/* A number of one of several kinds: special, near another, of few bits, or any. */
static uint32_t some32(uint32_t near)
{
    uint64_t r = any();
    switch (r >> 60) {
    case 0: return special32[(r >> 8) % (sizeof special32 / 4)] ^ (uint32_t)(r << 31);
    case 1: case 2: return near ^ (uint32_t)(r & 0x800000FF);
    case 3: case 4: return (near & 0x7F800000) + (uint32_t)((r & 31) << 23) - (16u << 23) ^ (uint32_t)(r >> 32 & 0x807FFFFF);
    case 5: return (uint32_t)r & 0xFFF80000;
    case 6: return (uint32_t)r & 0x80FFFFFF;
    }
    return (uint32_t)(r >> 13);
}
static uint64_t some64(uint64_t near)
{
    uint64_t r = any(), s = any();
    switch (r >> 60) {
    case 0: return special64[(r >> 8) % (sizeof special64 / 8)] ^ s << 63;
    case 1: case 2: return near ^ (s & 0x80000000000000FFull);
    case 3: case 4: return (near & 0x7FF0000000000000ull) + ((r & 127) << 52) - (64ull << 52) ^ (s & 0x800FFFFFFFFFFFFFull);
    case 5: return s & 0xFFFFF00000000000ull;
    case 6: return s & 0x801FFFFFFFFFFFFFull;
    case 7: return (s & 0x800FFFFFFFFFFFFFull) | (896 - 26 + r % 60) << 52;
    }
    return s;
}
static unsigned long wrong, done;
static void same(const char *what, uint64_t a, uint64_t b, uint64_t got, uint64_t wanted)
{
    done++;
    if (got != wanted && wrong++ < 20)
        printf("%s %llx %llx: %llx and not %llx\n", what, (unsigned long long)a, (unsigned long long)b, (unsigned long long)got, (unsigned long long)wanted);
}
/* What is no number is alike, whatever its bits. */
static uint32_t one32(uint32_t a) { return (a << 1) > 0xFF000000u ? 0x7FC00000 : a; }
static uint64_t one64(uint64_t a) { return (a << 1) > 0xFFE0000000000000ull ? 0x7FF8000000000000ull : a; }
#define BOTH(f, a, b, how) same(#f " f32", a, b, one32(tta_lib_##f##_f32(a, b)), one32(b32(how)))
#define BOTH64(f, a, b, how) same(#f " f64", a, b, one64(tta_lib_##f##_f64(a, b)), one64(b64(how)))

static void singles(void)
{
    uint32_t a = some32(0x3F800000), b = some32(a);
    volatile float x = f32(a), y = f32(b);
    BOTH(add, a, b, x + y); BOTH(sub, a, b, x - y); BOTH(mul, a, b, x * y); BOTH(div, a, b, x / y);
    if ((any() & 15) == 0)
        BOTH(rem, a, b, fmodf(x, y));
    same("lt f32", a, b, tta_lib_lt_f32(a, b), x < y); same("le f32", a, b, tta_lib_le_f32(a, b), x <= y);
    same("eq f32", a, b, tta_lib_eq_f32(a, b), x == y); same("un f32", a, b, tta_lib_un_f32(a, b), isunordered(x, y));
#define ONE32(f, how) same(#f " f32", a, 0, one32(tta_lib_##f##_f32(a)), one32(b32(how)))
    ONE32(sqrt, sqrtf(x)); ONE32(trunc, truncf(x)); ONE32(floor, floorf(x)); ONE32(ceil, ceilf(x)); ONE32(rint, rintf(x)); ONE32(round, roundf(x));
    same("f64_of_f32", a, 0, one64(tta_lib_f64_of_f32(a)), one64(b64((double)x)));
    if (x > -2147483649.0 && x < 2147483648.0) same("to_s32 f32", a, 0, (uint32_t)tta_lib_to_s32_f32(a), (uint32_t)(int32_t)x);
    if (x > -1 && x < 4294967296.0) same("to_u32 f32", a, 0, tta_lib_to_u32_f32(a), (uint32_t)x);
    if (x >= -9223372036854775808.0 && x < 9223372036854775808.0) same("to_s64 f32", a, 0, tta_lib_to_s64_f32(a), (int64_t)x);
    if (x > -1 && x < 18446744073709551616.0) same("to_u64 f32", a, 0, tta_lib_to_u64_f32(a), (uint64_t)x);
}
static void doubles(void)
{
    uint64_t a = some64(0x3FF0000000000000ull), b = some64(a);
    volatile double x = f64(a), y = f64(b);
    BOTH64(add, a, b, x + y); BOTH64(sub, a, b, x - y); BOTH64(mul, a, b, x * y); BOTH64(div, a, b, x / y);
    if ((any() & 63) == 0)
        BOTH64(rem, a, b, fmod(x, y));
    same("lt f64", a, b, tta_lib_lt_f64(a, b), x < y); same("le f64", a, b, tta_lib_le_f64(a, b), x <= y);
    same("eq f64", a, b, tta_lib_eq_f64(a, b), x == y); same("un f64", a, b, tta_lib_un_f64(a, b), isunordered(x, y));
#define ONE64(f, how) same(#f " f64", a, 0, one64(tta_lib_##f##_f64(a)), one64(b64(how)))
    ONE64(sqrt, sqrt(x)); ONE64(trunc, trunc(x)); ONE64(floor, floor(x)); ONE64(ceil, ceil(x)); ONE64(rint, rint(x)); ONE64(round, round(x));
    same("f32_of_f64", a, 0, one32(tta_lib_f32_of_f64(a)), one32(b32((float)x)));
    if (x > -2147483649.0 && x < 2147483648.0) same("to_s32 f64", a, 0, (uint32_t)tta_lib_to_s32_f64(a), (uint32_t)(int32_t)x);
    if (x > -1 && x < 4294967296.0) same("to_u32 f64", a, 0, tta_lib_to_u32_f64(a), (uint32_t)x);
    if (x >= -9223372036854775808.0 && x < 9223372036854775808.0) same("to_s64 f64", a, 0, tta_lib_to_s64_f64(a), (int64_t)x);
    if (x > -1 && x < 18446744073709551616.0) same("to_u64 f64", a, 0, tta_lib_to_u64_f64(a), (uint64_t)x);
}
static void integers(void)
{
    uint64_t r = any(), a = any() >> (r & 63);
    if (r & 64)
        a = (a << 40) + ((r >> 8 & 3) - 1) + (1ull << (r >> 12 & 63));
    same("of_u32 f32", a, 0, tta_lib_of_u32_f32((uint32_t)a), b32((float)(uint32_t)a)); same("of_s32 f32", a, 0, tta_lib_of_s32_f32((int32_t)a), b32((float)(int32_t)a));
    same("of_u64 f32", a, 0, tta_lib_of_u64_f32(a), b32((float)a)); same("of_s64 f32", a, 0, tta_lib_of_s64_f32((int64_t)a), b32((float)(int64_t)a));
    same("of_u32 f64", a, 0, tta_lib_of_u32_f64((uint32_t)a), b64((double)(uint32_t)a)); same("of_s32 f64", a, 0, tta_lib_of_s32_f64((int32_t)a), b64((double)(int32_t)a));
    same("of_u64 f64", a, 0, tta_lib_of_u64_f64(a), b64((double)a)); same("of_s64 f64", a, 0, tta_lib_of_s64_f64((int64_t)a), b64((double)(int64_t)a));
}
int main(int argc, char **argv)
{
    long count = argc > 1 ? atol(argv[1]) : 1000000;
    state += argc > 2 ? strtoull(argv[2], 0, 0) * 0x9E3779B97F4A7C15ull : 0;
    while (count--) {
        singles();
        doubles();
        integers();
    }
    printf("%lu results, %lu wrong\n", done, wrong);
    return wrong != 0;
}
