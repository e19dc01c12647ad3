// Floating point, single and double. Bits of what is no number may differ, so they are not output. Each part is a program of its own.
//// sums, products and quotients of floats
static uint32_t bits(float f) { uint32_t w; __builtin_memcpy(&w, &f, 4); return f == f ? w : 1; } static float of(uint32_t w) { float f; __builtin_memcpy(&f, &w, 4); return f; }
int main(void) { for (int k = 0; k < 12; k++) { float a = of(tta_in()), b = of(tta_in()), c = (int32_t)tta_in() / 1000.0f; OUT(bits(a + b)); OUT(bits(a - c)); OUT(bits(a * b)); OUT(bits(a / b)); OUT(bits(c * c - c)); OUT(bits(-a)); OUT(a < b); OUT(a <= c); OUT(a == a); OUT(b > c); OUT(c >= 2.5f); OUT(c != c); OUT(bits(a > b ? a : b)); OUT(bits(c / 3 + 0.1f)); } }
//// sums, products and quotients of doubles
static void put(double d) { uint64_t w; __builtin_memcpy(&w, &d, 8); if (d != d) w = 1; OUT(w); OUT(w >> 32); } static double of(uint64_t w) { double d; __builtin_memcpy(&d, &w, 8); return d; }
int main(void) { for (int k = 0; k < 8; k++) { uint32_t w[5]; for (int n = 0; n < 5; n++) w[n] = tta_in(); double a = of((uint64_t)w[0] << 32 | w[1]), b = of((uint64_t)w[2] << 32 | w[3]), c = (int32_t)w[4] / 1e5; put(a + b); put(a - c); put(a * b); put(a / b); put(c * c - c); put(-a); OUT(a < b); OUT(a <= c); OUT(a == a); OUT(b > c); OUT(c >= 2.5); put(c / 3 + 0.1); put(a < 0 ? -a : a); } }
//// changes between integers and floating point
#include <math.h>
static uint32_t bits(float f) { uint32_t w; __builtin_memcpy(&w, &f, 4); return w; } static void put(double d) { uint64_t w; __builtin_memcpy(&w, &d, 8); OUT(w); OUT(w >> 32); }
int main(void) { for (int k = 0; k < 10; k++) { uint32_t u = tta_in() >> (k * 3 & 31); int32_t i = (int32_t)tta_in() >> (k & 7); uint64_t l = (uint64_t)u << 17 | 5; int64_t m = (int64_t)i << 11 | 1; OUT(bits(u)); OUT(bits(i)); put(u); put(i); OUT(bits(l)); OUT(bits(m)); put(l); put(m); float f = i / 256.0f; double d = m / 65536.0; OUT((int32_t)f); OUT((int64_t)d); OUT((int64_t)d >> 32); OUT((uint32_t)fabs(d / 65536)); OUT((uint64_t)fabs(d) >> 3); put(f); OUT(bits((float)d)); OUT((int8_t)(f / 1e8f)); OUT((uint16_t)(u % 60000 / 2.5f)); OUT(bits((int16_t)i)); OUT(bits((uint8_t)i)); OUT(f ? 1 : 2); OUT((_Bool)(d - d)); } }
//// roots, whole numbers and signs
#include <math.h>
static void put(double d) { uint64_t w; __builtin_memcpy(&w, &d, 8); if (d != d) w = 7; OUT(w); OUT(w >> 32); }
int main(void) { for (int k = 0; k < 10; k++) { int32_t i = (int32_t)tta_in() >> (k & 15); double d = i / 8.0; float f = i / 4.0f; put(sqrt(fabs(d))); put(sqrtf(fabsf(f))); put(floor(d)); put(ceil(d)); put(trunc(d)); put(rint(d)); put(round(d)); put(floorf(f)); put(ceilf(f)); put(roundf(f)); put(fmin(d, f)); put(fmaxf(f, 3)); put(copysign(d, -f)); put(fmod(d, 7.5)); put(fmodf(f, 0.75f)); put(sqrt(d)); OUT(isnan(sqrt(-1 - fabs(d)))); OUT(isinf(1 / (d - d))); OUT(signbit(d)); OUT(isfinite(d)); } }
//// arrays and structures of floating point, with first words
struct p { float x; double y; float z[2]; }; static struct p t[4] = {{1.5f, -2.25, {3, 4}}, {.y = 1e300}, {-0.0f}}; static const double w[] = {0.1, 3e-310, -7, 1.0 / 3}; static const float v[] = {0.1f, 1e-40f, 16777217, -3};
static void put(double d) { uint64_t w; __builtin_memcpy(&w, &d, 8); OUT(w); OUT(w >> 32); }
static __attribute__((noinline)) struct p turn(struct p a, float s) { struct p r = {a.x - s, a.y * s, {a.z[1], a.z[0] + s}}; return r; }
int main(void) { for (int k = 0; k < 8; k++) { struct p q = turn(t[k & 3], v[(tta_in() >> 9) & 3]); t[(k + 1) & 3] = q; put(q.x); put(q.y / 3); put(q.z[0] - q.z[1]); put(w[k & 3] + v[(k + 1) & 3]); } float m[3][3], s = 0; for (int i = 0; i < 3; i++) for (int j = 0; j < 3; j++) m[i][j] = 1.0f / (i + j + 1); for (int i = 0; i < 3; i++) for (int j = 0; j < 3; j++) s += m[i][j] * m[j][i]; put(s); }
//// numbers that are none, and both zeros, in relations
static const uint32_t words[] = {0, 0x80000000, 0x3f800000, 0xbf800000, 0x7f800000, 0xff800000, 0x7fc00000, 1};
static float of(uint32_t w) { float f; __builtin_memcpy(&f, &w, 4); return f; }
int main(void) { for (int i = 0; i < 8; i++) for (int j = 0; j < 8; j++) { float a = of(words[(i + tta_in() * 8) & 7]), b = of(words[j]); double c = a, d = b; OUT((a < b) | (a <= b) << 1 | (a == b) << 2 | (a != b) << 3 | (a > b) << 4 | (a >= b) << 5 | !(a < b) << 6 | !(a > b) << 7 | !(a <= b) << 8 | __builtin_isless(a, b) << 9 | __builtin_islessgreater(a, b) << 10 | __builtin_isunordered(a, b) << 11 | (c < d) << 12 | (c == d) << 13 | !(c >= d) << 14 | !__builtin_islessgreater(c, d) << 15); } }
//// classes of numbers: none, infinite, normal, subnormal and zero, with their signs
#include <math.h>
static __attribute__((noinline)) uint32_t classes(double x, float y) {
  uint32_t r = 0; r = r * 2 + !!__builtin_isnan(x); r = r * 2 + !!__builtin_isinf(x); r = r * 2 + !!__builtin_isfinite(x); r = r * 2 + !!__builtin_isnormal(x);
  r = r * 2 + !!__builtin_isnan(y); r = r * 2 + !!__builtin_isinf(y); r = r * 2 + !!__builtin_isfinite(y); r = r * 2 + !!__builtin_isnormal(y); r = r * 2 + !!__builtin_signbit(x); r = r * 2 + !!__builtin_signbitf(y);
  return r * 8 + __builtin_fpclassify(0, 1, 2, 3, 4, x); }
int main(void) {
  static const uint32_t tops[] = {0, 1, 0x00080000, 0x000fffff, 0x00100000, 0x3ff00000, 0x7fefffff, 0x7ff00000, 0x7ff00001, 0x7ff80000, 0x7fffffff};
  static const uint32_t lows[] = {0, 1, 0xffffffff};
  static const uint32_t singles[] = {0, 1, 0x007fffff, 0x00800000, 0x3f800000, 0x7f7fffff, 0x7f800000, 0x7fc00000, 0x7fffffff};
  for (int s = 0; s < 2; s++) for (int k = 0; k < 11; k++) for (int l = 0; l < 3; l++) {
    union { double d; uint64_t w; } u; union { float f; uint32_t w; } v;
    u.w = (uint64_t)(tops[k] | (uint32_t)s << 31) << 32 | lows[l]; v.w = singles[(k + l) % 9] | (uint32_t)s << 31;
    tta_out(classes(u.d, v.f)); }
  return 0; }
