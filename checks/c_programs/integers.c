// Integers of all widths. Each part is a program of its own; it reads words of the common input by tta_in.
//// sums of narrow numbers wrap
int main(void) {
    for (int k = 0; k < 8; k++) {
        uint8_t a = tta_in(), b = tta_in(); int8_t c = a, d = b; uint16_t e = a * 771u, f = b * 313u; int16_t g = e, i = f;
        OUT((uint8_t)(a + b)); OUT((int8_t)(c - d)); OUT((uint16_t)(e * f)); OUT((int16_t)(g + i)); OUT((uint8_t)(a - b) > 7); OUT((int8_t)(c + d) < 0);
        a += 200; a += 200; OUT(a); c = -c; OUT(c); e = ~e; OUT(e); g >>= 3; OUT(g); e >>= 3; OUT(e); c <<= 2; OUT(c);
    }
}
//// products and their high halves
int main(void) {
    for (int k = 0; k < 8; k++) {
        uint32_t a = tta_in(), b = tta_in(); int32_t c = a, d = b;
        OUT(a * b); OUT((uint64_t)a * b >> 32); OUT((int64_t)c * d >> 32); OUT((int64_t)c * b >> 32); OUT(tta_op_mulhu(a, b));
        OUT((uint32_t)((uint64_t)a * b >> 17)); OUT((int16_t)c * (int16_t)d); OUT((uint16_t)a * (uint32_t)(uint16_t)b); OUT(a * 10); OUT(c * -7); OUT(a * 0x8001);
    }
}
//// divisions of words, constants and not
int main(void) {
    for (int k = 0; k < 8; k++) {
        uint32_t a = tta_in(), b = tta_in() | 1; int32_t c = a, d = (int32_t)b >> (k * 3);
        OUT(a / b); OUT(a % b); OUT(c / d); OUT(c % d); OUT(a / (b >> 20 | 1)); OUT(c / ((d >> 12) | 1)); OUT(c % ((d >> 12) | 1));
        OUT(a / 3); OUT(a % 3); OUT(a / 7); OUT(a % 7); OUT(a / 10); OUT(a % 1000000007u); OUT(a / 0x80000001u); OUT(a / 641); OUT(a / 28); OUT(a % 60);
        OUT(c / 3); OUT(c % 3); OUT(c / -7); OUT(c % -7); OUT(c / 10); OUT(c / 16); OUT(c % 16); OUT(c / -16); OUT(c / 1000003); OUT(c % 86400);
        OUT((uint8_t)a / 5); OUT((int8_t)a / 5); OUT((uint16_t)a % 100); OUT((int16_t)a % -100); OUT((int8_t)a / (int8_t)3);
    }
    OUT((int32_t)tta_in() / 2);
    volatile int32_t least = INT32_MIN; OUT(least / 2); OUT(least % 10); OUT(least / 3); OUT(least / -2);
}
//// shifts by constants and by words
int main(void) {
    for (int k = 0; k < 8; k++) {
        uint32_t a = tta_in(), n = tta_in() & 31; int32_t c = a;
        OUT(a << n); OUT(a >> n); OUT(c >> n); OUT(a << 1 >> 1); OUT(c << 3 >> 3); OUT((int8_t)(a >> 4)); OUT((uint16_t)(c >> 5)); OUT((uint8_t)a >> (n & 7)); OUT((int16_t)a >> (n & 15));
        OUT(a << n | a >> (-n & 31)); OUT(a >> n | a << (-n & 31)); OUT(a << 7 | a >> 25); OUT(1u << n); OUT((1u << n) - 1 & a); OUT((uint8_t)(a << 3 | (uint8_t)a >> 5));
    }
}
//// comparisons with and without sign, of all widths
int main(void) {
    for (int k = 0; k < 8; k++) {
        uint32_t a = tta_in(), b = tta_in(); int32_t c = a, d = b; uint8_t e = a, f = b; int8_t g = a, i = b; uint16_t j = a; int16_t l = b;
        OUT(a < b); OUT(c < d); OUT(e < f); OUT(g < i); OUT(g < f); OUT(j < l); OUT(a >= b); OUT(c <= d); OUT(e == f); OUT(g != i); OUT((a > b) + (c > d) * 2 + (e > f) * 4 + (g > i) * 8);
        OUT(c < 0); OUT(c > -1); OUT(c >= 100); OUT(a > 0x7fffffff); OUT(e > 127); OUT(g > 100); OUT(g < -100); OUT(l == -1); OUT(j == 0xffff); OUT(!a); OUT(!!b);
        OUT(a < b ? a : b); OUT(c > d ? c : d); OUT(c < 0 ? -c : c); OUT(e < 10 ? 10 : e > 100 ? 100 : e); OUT((int)g < -20 ? -20 : g);
    }
}
//// 64 bits: sums, products, shifts, comparisons
int main(void) {
    for (int k = 0; k < 6; k++) {
        uint64_t a = (uint64_t)tta_in() << 32 | tta_in(), b = (uint64_t)tta_in() << 32 | tta_in(); int64_t c = a, d = b; unsigned n = tta_in() & 63;
        uint64_t r[] = {a + b, a - b, a * b, a & b, a ^ ~b, a << n, a >> n, (uint64_t)(c >> n), a << 7, a >> 33, (uint64_t)(c >> 40), a << 32, -a, (uint64_t)(c * d), a * 10, a + 1, a - 1, a << n >> n, (uint64_t)(int32_t)a, (uint32_t)a, (uint64_t)(int8_t)a,
                        a < b ? a : b, c > d ? a : b, (uint64_t)(c < 0 ? -c : c), a << n | a >> (-n & 63), a >> 13 | a << 51, n ? a : b};
        for (unsigned q = 0; q < sizeof r / sizeof *r; q++) { OUT(r[q]); OUT(r[q] >> 32); }
        OUT(a < b); OUT(c < d); OUT(a == b); OUT(a != b); OUT(c >= d); OUT(c < 0); OUT(a > 5); OUT(c > -5); OUT((a & 0xff00000000) == 0); OUT(!a);
    }
}
//// 64 bits: divisions
int main(void) {
    for (int k = 0; k < 4; k++) {
        uint64_t a = (uint64_t)tta_in() << 32 | tta_in(), b = (uint64_t)(tta_in() >> (k * 8)) << 32 | tta_in(); int64_t c = a, d = b;
        uint64_t r[] = {a / b, a % b, (uint64_t)(c / d), (uint64_t)(c % d), a / 10, a % 10, (uint64_t)(c / -1000), (uint64_t)(c % 1000), a / (uint32_t)b, a % ((uint32_t)b | 1), (a >> 40) / (b >> 60 | 1)};
        for (unsigned q = 0; q < sizeof r / sizeof *r; q++) { OUT(r[q]); OUT(r[q] >> 32); }
    }
}
//// counts and orders of bits
int main(void) {
    for (int k = 0; k < 8; k++) {
        uint32_t a = tta_in() >> (k * 4); uint64_t b = (uint64_t)a << k * 5 | 1;
        OUT(__builtin_popcount(a)); OUT(__builtin_clz(a | 1)); OUT(__builtin_ctz(a | 1u << 31)); OUT(__builtin_bswap32(a)); OUT(__builtin_bswap16(a)); OUT(__builtin_parity(a)); OUT(__builtin_ffs(a));
        OUT(__builtin_popcountll(b)); OUT(__builtin_clzll(b)); OUT(__builtin_ctzll(b)); OUT(__builtin_bswap64(b)); OUT(__builtin_bswap64(b) >> 32);
        uint32_t n = 0, v = a; while (v) { n++; v &= v - 1; } OUT(n);
        v = a; v = (v >> 1 & 0x55555555) | (v & 0x55555555) << 1; v = (v >> 2 & 0x33333333) | (v & 0x33333333) << 2; v = (v >> 4 & 0x0f0f0f0f) | (v & 0x0f0f0f0f) << 4; OUT(__builtin_bswap32(v));
    }
}
//// sums that are checked for overflow
int main(void) {
    for (int k = 0; k < 8; k++) {
        uint32_t a = tta_in(), b = tta_in(), u; int32_t c = a, d = b, s; uint8_t e; int16_t f; uint64_t g; 
        OUT(__builtin_add_overflow(a, b, &u)); OUT(u); OUT(__builtin_sub_overflow(a, b, &u)); OUT(u); OUT(__builtin_mul_overflow(a, b & 0xffff, &u)); OUT(u);
        OUT(__builtin_add_overflow(c, d, &s)); OUT(s); OUT(__builtin_sub_overflow(c, d, &s)); OUT(s); OUT(__builtin_mul_overflow(c, d >> 20, &s)); OUT(s);
        OUT(__builtin_add_overflow((uint8_t)a, (uint8_t)b, &e)); OUT(e); OUT(__builtin_mul_overflow((int16_t)a, (int16_t)b, &f)); OUT(f);
        OUT(__builtin_add_overflow((uint64_t)a << 32 | b, (uint64_t)b << 32 | a, &g)); OUT(g); OUT(g >> 32);
        u = a + b < a ? 0xffffffff : a + b; OUT(u); s = c > 0 && d > INT32_MAX - c ? INT32_MAX : c < 0 && d < INT32_MIN - c ? INT32_MIN : c + d; OUT(s); u = a < b ? 0 : a - b; OUT(u);
    }
}
//// bit fields
struct fields { unsigned a : 3, b : 7; int c : 5; unsigned d : 1; uint64_t e : 40; int f : 11; unsigned g : 32; };
static struct fields s[4];
int main(void) {
    for (int k = 0; k < 12; k++) {
        struct fields *p = &s[tta_in() & 3]; uint32_t w = tta_in();
        p->a += w; p->b = w >> 3; p->c = w >> 10; p->d ^= w >> 15; p->e = (uint64_t)w << 9 | w >> 20; p->f -= w >> 5; p->g = ~w;
        OUT(p->a); OUT(p->b); OUT(p->c); OUT(p->d); OUT(p->e); OUT(p->e >> 32); OUT(p->f); OUT(p->g);
    }
}
//// truths, enumerations and conversions
enum colour { red = -1, green, blue = 300 };
int main(void) {
    for (int k = 0; k < 8; k++) {
        uint32_t a = tta_in(); _Bool b = a & 4, c = a >> 5; enum colour d = (a & 1) ? red : (a & 2) ? green : blue; char e = a; unsigned char f = a; signed char g = a; short i = a; long l = (int)a; long long m = e;
        OUT(b); OUT(c); OUT(b + c); OUT(b ^ c); OUT(!b); OUT(d); OUT(d < green); OUT(f); OUT(g); OUT(i); OUT(l); OUT(m >> 32 == (m < 0 ? -1 : 0)); OUT((uint8_t)b << 3); OUT(b ? f : g); b |= f > g; b++; OUT(b);
    }
}
//// digits, squares and greatest divisors
static uint32_t root(uint32_t n) { uint32_t r = 0, b = 1u << 30; while (b > n) b >>= 2; while (b) { if (n >= r + b) { n -= r + b; r = (r >> 1) + b; } else r >>= 1; b >>= 2; } return r; }
int main(void) {
    for (int k = 0; k < 6; k++) {
        uint32_t a = tta_in(), b = tta_in(), s = 0; OUT(root(a));
        for (uint32_t x = a; x; x /= 10) s = s * 31 + x % 10; OUT(s);
        while (b) { uint32_t t = a % b; a = b; b = t; } OUT(a);
        uint32_t p = 1, q = a | 1, e = tta_in() & 255; while (e) { if (e & 1) p *= q; q *= q; e >>= 1; } OUT(p);
    }
}
//// compared three ways, rotated and saturated in all widths, sums that overflow, cases of 64 bits
#include <string.h>
static __attribute__((noinline)) int three(int a, int b) { return a < b ? -1 : a > b; }
static __attribute__((noinline)) int threeu(uint64_t a, uint64_t b) { return (a > b) - (a < b); }
static __attribute__((noinline)) int8_t three8(int8_t a, int8_t b) { return (a > b) - (a < b); }
static __attribute__((noinline)) int64_t threes(int64_t a, int64_t b) { return (a > b) - (a < b); }
static __attribute__((noinline)) uint8_t rot8(uint8_t x, unsigned k) { return x << (k & 7) | x >> (-k & 7); }
static __attribute__((noinline)) uint16_t rot16(uint16_t x, unsigned k) { k &= 15; return x << k | x >> ((16 - k) & 15); }
static __attribute__((noinline)) uint64_t rot64(uint64_t x, unsigned k) { return x << (k & 63) | x >> (-k & 63); }
static __attribute__((noinline)) uint8_t sat8(uint8_t a, uint8_t b) { unsigned s = a + b; return s > 255 ? 255 : s; }
static __attribute__((noinline)) int16_t sat16(int16_t a, int16_t b) { int s = a + b; return s > 32767 ? 32767 : s < -32768 ? -32768 : s; }
static __attribute__((noinline)) int8_t sats8(int8_t a, int8_t b) { int s = a - b; return s > 127 ? 127 : s < -128 ? -128 : s; }
static __attribute__((noinline)) uint32_t avg(uint32_t a, uint32_t b) { return ((uint64_t)a + b) >> 1; }
static __attribute__((noinline)) int clamp(int x) { return x < 0 ? 0 : x > 255 ? 255 : x; }
static __attribute__((noinline)) unsigned parity(uint32_t x) { return __builtin_parity(x) + __builtin_popcountll((uint64_t)x << 20 ^ x); }
static __attribute__((noinline)) unsigned zs(uint64_t x) { return x ? __builtin_clzll(x) * 100 + __builtin_ctzll(x) : 7; }
static __attribute__((noinline)) int ovf(int a, int b, int *r) { return __builtin_mul_overflow(a, b, r) + __builtin_add_overflow(a, b, r) * 2 + __builtin_sub_overflow(*r, a, r) * 4; }
static __attribute__((noinline)) int ovf8(int8_t a, uint8_t b) { int8_t r; int x = __builtin_add_overflow(a, b, &r); return x * 256 + (uint8_t)r; }
static __attribute__((noinline)) int ovf64(int64_t a, int64_t b) { int64_t r; int x = __builtin_add_overflow(a, b, &r); return x + (uint32_t)(r >> 32); }
static __attribute__((noinline)) uint64_t mix(uint64_t a, uint32_t k) { return k < 64 ? (a >> k) ^ (a << (63 - k)) ^ (uint64_t)((int64_t)a >> k) : 0; }
static __attribute__((noinline)) int sw(int64_t x) { switch (x) { case 0: return 1; case 1: return 2; case 0x100000000LL: return 3; case -1: return 4; case 5 ... 9: return 5; case 0x7fffffffffffffffLL: return 6; default: return 0; } }
static __attribute__((noinline)) int sw8(int8_t x) { switch (x) { case -128 ... -100: return 1; case -1: return 2; case 0: return 3; case 100 ... 127: return 4; default: return 5; } }
int main(void) {
  uint32_t v[6]; for (int k = 0; k < 6; k++) v[k] = tta_in();
  v[4] = 0; v[5] = 0x80000000u;
  for (int a = 0; a < 6; a++) for (int b = 0; b < 6; b++) {
    uint64_t x = (uint64_t)v[a] << 32 | v[b], y = (uint64_t)v[b] << 32 | v[a];
    tta_out(three(v[a], v[b])); tta_out(threeu(x, y)); tta_out(three8(v[a], v[b])); tta_out(threes(x, y)); tta_out(threes(x, y) >> 32);
    tta_out(rot8(v[a], v[b])); tta_out(rot16(v[a], v[b])); tta_out(rot64(x, v[b])); tta_out(rot64(x, v[b]) >> 32);
    tta_out(sat8(v[a], v[b])); tta_out(sat16(v[a], v[b])); tta_out(sats8(v[a], v[b])); tta_out(avg(v[a], v[b])); tta_out(clamp((int)v[a] >> 20));
    tta_out(parity(v[a])); tta_out(zs(x)); int r; tta_out(ovf(v[a], v[b], &r)); tta_out(r); tta_out(ovf8(v[a], v[b])); tta_out(ovf64(x, y));
    tta_out(mix(x, v[b] & 127)); tta_out(mix(x, v[b] & 127) >> 32);
  }
  static const int64_t xs[] = {0, 1, 2, 0x100000000LL, -1, 5, 7, 9, 10, 0x7fffffffffffffffLL, 0x100000001LL}; for (int k = 0; k < 11; k++) tta_out(sw(xs[(k + v[4]) % 11]));
  for (int k = -128; k < 128; k += 9) tta_out(sw8(k + v[4]));
  return 0; }
