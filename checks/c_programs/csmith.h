/* What csmith's programs ask for, for the host and for `./tta c`: operations that are defined for all words, and a sum of what they leave, which
   is output after each variable. */
#ifndef CSMITH_H
#define CSMITH_H
#include <limits.h>
#include <stdint.h>
#include <string.h>
#include "tta.h"

/* Where a variable's indices are told, which is never asked for. */
#ifdef __TTA__
#define printf(...) ((void)0)
#endif

static uint32_t crc32_context = 0xFFFFFFFFu;
static void crc32_gentab(void) { }
static void platform_main_begin(void) { }
static void transparent_crc(uint64_t value, const char *name, int flag)
{
    (void)name;
    (void)flag;
    crc32_context = (crc32_context ^ (uint32_t)value) * 16777619u;
    crc32_context = (crc32_context ^ (uint32_t)(value >> 32)) * 16777619u;
    tta_out(crc32_context);
}
static void transparent_crc_bytes(char *p, int n, char *name, int flag)
{
    while (n--)
        transparent_crc((uint8_t)*p++, name, flag);
}
static void platform_main_end(uint32_t crc, int flag)
{
    (void)flag;
    tta_out(crc);
}

/* Where an operation is not defined, its first word is the result. Sums and products are worked out without sign. */
#define SIGNED(n, wide) \
    static int##n##_t safe_unary_minus_func_int##n##_t_s(int##n##_t a) { return a == INT##n##_MIN ? a : -a; } \
    static int##n##_t safe_add_func_int##n##_t_s_s(int##n##_t a, int##n##_t b) \
    { return (a > 0 && b > 0 && a > INT##n##_MAX - b) || (a < 0 && b < 0 && a < INT##n##_MIN - b) ? a : a + b; } \
    static int##n##_t safe_sub_func_int##n##_t_s_s(int##n##_t a, int##n##_t b) \
    { return (b < 0 && a > INT##n##_MAX + b) || (b > 0 && a < INT##n##_MIN + b) ? a : a - b; } \
    static int##n##_t safe_mul_func_int##n##_t_s_s(int##n##_t a, int##n##_t b) { return (int##n##_t)((wide)a * (wide)b); } \
    static int##n##_t safe_div_func_int##n##_t_s_s(int##n##_t a, int##n##_t b) { return b == 0 || (a == INT##n##_MIN && b == -1) ? a : a / b; } \
    static int##n##_t safe_mod_func_int##n##_t_s_s(int##n##_t a, int##n##_t b) { return b == 0 || (a == INT##n##_MIN && b == -1) ? a : a % b; } \
    static int##n##_t safe_lshift_func_int##n##_t_s_s(int##n##_t a, int b) \
    { return a < 0 || b < 0 || b >= 32 || a > INT##n##_MAX >> b ? a : a << b; } \
    static int##n##_t safe_lshift_func_int##n##_t_s_u(int##n##_t a, unsigned b) { return a < 0 || b >= 32 || a > INT##n##_MAX >> b ? a : a << b; } \
    static int##n##_t safe_rshift_func_int##n##_t_s_s(int##n##_t a, int b) { return a < 0 || b < 0 || b >= 32 ? a : a >> b; } \
    static int##n##_t safe_rshift_func_int##n##_t_s_u(int##n##_t a, unsigned b) { return a < 0 || b >= 32 ? a : a >> b; }
#define UNSIGNED(n) \
    static uint##n##_t safe_unary_minus_func_uint##n##_t_u(uint##n##_t a) { return -a; } \
    static uint##n##_t safe_add_func_uint##n##_t_u_u(uint##n##_t a, uint##n##_t b) { return a + b; } \
    static uint##n##_t safe_sub_func_uint##n##_t_u_u(uint##n##_t a, uint##n##_t b) { return a - b; } \
    static uint##n##_t safe_mul_func_uint##n##_t_u_u(uint##n##_t a, uint##n##_t b) { return (uint##n##_t)(1u * a * b); } \
    static uint##n##_t safe_div_func_uint##n##_t_u_u(uint##n##_t a, uint##n##_t b) { return b == 0 ? a : a / b; } \
    static uint##n##_t safe_mod_func_uint##n##_t_u_u(uint##n##_t a, uint##n##_t b) { return b == 0 ? a : a % b; } \
    static uint##n##_t safe_lshift_func_uint##n##_t_u_s(uint##n##_t a, int b) { return b < 0 || b >= 32 || a > UINT##n##_MAX >> b ? a : a << b; } \
    static uint##n##_t safe_lshift_func_uint##n##_t_u_u(uint##n##_t a, unsigned b) { return b >= 32 || a > UINT##n##_MAX >> b ? a : a << b; } \
    static uint##n##_t safe_rshift_func_uint##n##_t_u_s(uint##n##_t a, int b) { return b < 0 || b >= 32 ? a : a >> b; } \
    static uint##n##_t safe_rshift_func_uint##n##_t_u_u(uint##n##_t a, unsigned b) { return b >= 32 ? a : a >> b; }
SIGNED(8, uint32_t)
SIGNED(16, uint32_t)
SIGNED(32, uint32_t)
SIGNED(64, uint64_t)
UNSIGNED(8)
UNSIGNED(16)
UNSIGNED(32)
UNSIGNED(64)
#endif
