/* Floating point for machines that have none: single and double precision as IEEE 754 has them, rounded to the nearest, to even where two are as
   near. It is linked to programs that need it; checks/random/c compares it with the host's. */
#include <stdint.h>

static int LEAD32(uint32_t a) { return __builtin_clz(a); }
static int LEAD64(uint64_t a) { return a >> 32 ? LEAD32((uint32_t)(a >> 32)) : 32 + LEAD32((uint32_t)a); }
static uint32_t high32(uint32_t a, uint32_t b, uint32_t *low)
{
    uint64_t p = (uint64_t)a * b;
    *low = (uint32_t)p;
    return (uint32_t)(p >> 32);
}
static uint64_t high64(uint64_t a, uint64_t b, uint64_t *low)
{
    uint64_t x = (uint64_t)(uint32_t)a * (uint32_t)b, y = (a >> 32) * (uint32_t)b, z = (uint32_t)a * (b >> 32);
    uint64_t middle = (x >> 32) + (uint32_t)y + (uint32_t)z;
    *low = middle << 32 | (uint32_t)x;
    return (a >> 32) * (b >> 32) + (y >> 32) + (z >> 32) + (middle >> 32);
}

#define W 32
#define MANT 23
#define T uint32_t
#define N(x) tta_lib_##x##_f32
#define LEAD(x) LEAD32(x)
#define HIGH(a, b, low) high32(a, b, &low)
#include "float_ops.h"
#define W 64
#define MANT 52
#define T uint64_t
#define N(x) tta_lib_##x##_f64
#define LEAD(x) LEAD64(x)
#define HIGH(a, b, low) high64(a, b, &low)
#include "float_ops.h"

uint64_t tta_lib_f64_of_f32(uint32_t a)
{
    uint64_t sign = (uint64_t)(a & 0x80000000u) << 32, m = a & 0x7FFFFF;
    int e = a >> 23 & 255, k;
    if (e == 255)
        return sign | (uint64_t)0x7FF << 52 | m << 29 | (m ? (uint64_t)1 << 51 : 0);
    if (!e) {
        if (!m)
            return sign;
        k = LEAD32((uint32_t)m) - 8;
        m = m << k & 0x7FFFFF;
        e = 1 - k;
    }
    return sign | (uint64_t)(e + 896) << 52 | m << 29;
}
uint32_t tta_lib_f32_of_f64(uint64_t a)
{
    uint32_t sign = (uint32_t)(a >> 32) & 0x80000000u, m;
    int e = (int)(a >> 52) & 0x7FF;
    if (e == 0x7FF)
        return sign | 0x7F800000u | (uint32_t)(a >> 29 & 0x7FFFFF) | (a << 12 ? 0x400000u : 0);
    m = (uint32_t)(a >> 26 & 0x3FFFFFF) | ((a & 0x3FFFFFF) != 0);
    if (e < 896 - 30)
        return sign;
    return tta_lib_pack_f32(sign, e - 896, m | 1u << 26);
}

double tta_lib_fmod(double a, double b)
{
    union { double d; uint64_t w; } x = {a}, y = {b};
    x.w = tta_lib_rem_f64(x.w, y.w);
    return x.d;
}
float tta_lib_fmodf(float a, float b)
{
    union { float f; uint32_t w; } x = {a}, y = {b};
    x.w = tta_lib_rem_f32(x.w, y.w);
    return x.f;
}
