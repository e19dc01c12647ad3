/* What programs need and no machine has. It is linked to each program, and what is not used is left out. */
typedef unsigned long long u64;
typedef long long s64;
typedef unsigned int u32;

u64 tta_lib_udiv(u64 a, u64 b)
{
    u64 q = 0, r = 0;
    int k;
    if (!(a >> 32) && !(b >> 32))
        return (u32)b ? (u32)a / (u32)b : ~0ull;
    for (k = 0; k < 64; k++) {
        r = r << 1 | a >> 63;
        a <<= 1;
        q <<= 1;
        if (r >= b) {
            r -= b;
            q |= 1;
        }
    }
    return q;
}
u64 tta_lib_urem(u64 a, u64 b)
{
    return a - tta_lib_udiv(a, b) * b;
}
s64 tta_lib_sdiv(s64 a, s64 b)
{
    u64 q = tta_lib_udiv(a < 0 ? -(u64)a : (u64)a, b < 0 ? -(u64)b : (u64)b);
    return (a < 0) != (b < 0) ? -q : q;
}
s64 tta_lib_srem(s64 a, s64 b)
{
    u64 p = a < 0 ? -(u64)a : (u64)a, d = b < 0 ? -(u64)b : (u64)b;
    u64 r = p - tta_lib_udiv(p, d) * d;
    return a < 0 ? -r : r;
}

/* Words, for machines that lack these operations. A division by 0 gives what that of the standard units gives. */
u32 tta_lib_mul32(u32 a, u32 b)
{
    u32 p = 0;
    for (; b; b >>= 1, a <<= 1)
        if (b & 1)
            p += a;
    return p;
}
u32 tta_lib_div32(u32 a, u32 b)
{
    u32 r = 0;
    int k;
    for (k = 0; k < 32; k++) {
        u32 lost = r >> 31;
        r = r << 1 | a >> 31;
        a <<= 1;
        if (lost || r >= b) {
            r -= b;
            a |= 1;
        }
    }
    return a;
}
u32 tta_lib_rem32(u32 a, u32 b)
{
    u32 r = 0;
    int k;
    for (k = 0; k < 32; k++) {
        u32 lost = r >> 31;
        r = r << 1 | a >> 31;
        a <<= 1;
        if (lost || r >= b)
            r -= b;
    }
    return r;
}
u32 tta_lib_shl32(u32 a, u32 n)
{
    for (n &= 31; n; n--)
        a += a;
    return a;
}
/* From above, bit by bit: what has no shift to the right has comparisons. */
u32 tta_lib_shru32(u32 a, u32 n)
{
    u32 from = 0x80000000u, r = 0, k;
    n &= 31;
    for (k = 32; k > n; k--) {
        r += r;
        if (a & from)
            r++;
        a += a;
    }
    return r;
}

typedef __SIZE_TYPE__ size_t;
/* A program may have its own. */
#define WEAK __attribute__((weak))

WEAK void *memcpy(void *to, const void *from, size_t n)
{
    return __builtin_memcpy(to, from, n);
}
WEAK void *memmove(void *to, const void *from, size_t n)
{
    return __builtin_memmove(to, from, n);
}
WEAK void *memset(void *to, int byte, size_t n)
{
    return __builtin_memset(to, byte, n);
}
WEAK int memcmp(const void *a, const void *b, size_t n)
{
    const unsigned char *p = a, *q = b;
    for (; n; n--, p++, q++)
        if (*p != *q)
            return *p - *q;
    return 0;
}
WEAK void *memchr(const void *a, int byte, size_t n)
{
    const unsigned char *p = a;
    for (; n; n--, p++)
        if (*p == (unsigned char)byte)
            return (void *)p;
    return 0;
}
WEAK size_t strlen(const char *a)
{
    size_t n = 0;
    while (a[n])
        n++;
    return n;
}
WEAK int strcmp(const char *a, const char *b)
{
    while (*a && *a == *b)
        a++, b++;
    return (unsigned char)*a - (unsigned char)*b;
}
WEAK int strncmp(const char *a, const char *b, size_t n)
{
    for (; n; n--, a++, b++)
        if (*a != *b || !*a)
            return (unsigned char)*a - (unsigned char)*b;
    return 0;
}
WEAK char *strcpy(char *to, const char *from)
{
    char *p = to;
    while ((*p++ = *from++))
        ;
    return to;
}
WEAK char *strchr(const char *a, int c)
{
    for (;; a++) {
        if (*a == (char)c)
            return (char *)a;
        if (!*a)
            return 0;
    }
}

#ifndef TTA_HEAP
#define TTA_HEAP 65536
#endif
static u64 heap[TTA_HEAP / 8];
static size_t used;
WEAK void *malloc(size_t n)
{
    void *p = heap + used;
    if (n > sizeof heap - used * 8)
        return 0;
    used += (n + 7) / 8;
    return p;
}
WEAK void *calloc(size_t n, size_t m)
{
    u64 all = (u64)n * m;
    return all >> 32 ? 0 : malloc((size_t)all);   /* nothing is given twice, so all of it is 0 */
}
/* What stands between the old place and the new one holds all that the old one had. */
WEAK void *realloc(void *p, size_t n)
{
    char *to = malloc(n), *from = p;
    if (to && from)
        for (size_t k = 0; k < n && from + k < to; k++)
            to[k] = from[k];
    return to;
}
WEAK void free(void *p)
{
    (void)p;
}
#include "library_strings.h"
#include "library_numbers.h"
