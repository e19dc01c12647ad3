// Branches, loops, calls and what the machine offers. Each part is a program of its own.
//// switches: dense, sparse, ranges, cases that go on
static int dense(int k) { switch (k) { case 0: return 7; case 1: return 12; case 2: return -3; case 3: return 99; case 4: return 4; case 5: return 50; case 6: return 61; case 7: return 72; } return -1; }
static unsigned sparse(uint32_t k) { switch (k) { case 3: return 1; case 100: return 2; case 65536: return 3; case 0x80000000u: return 4; case 0xffffffffu: return 5; case 7: case 8: case 9: return 6; } return 0; }
int main(void) {
    for (int k = -2; k < 10; k++) OUT(dense(k + (int)(tta_in() & 1)));
    uint32_t t[] = {0, 3, 4, 6, 7, 8, 9, 10, 99, 100, 101, 65535, 65536, 0x7fffffff, 0x80000000u, 0xfffffffe, 0xffffffff}; for (int k = 0; k < 17; k++) OUT(sparse(t[k] + (tta_in() & 0)));
    uint32_t h = 1; for (int k = 0; k < 40; k++) switch (tta_in() % 13) { case 0: h += 5; case 1: h *= 3; break; case 2 ... 5: h ^= k; break; case 7: h = ~h; default: h += k; break; case 11: continue; } OUT(h);
}
//// a switch over narrow and wide numbers, with and without sign
int main(void) {
    for (int k = 0; k < 16; k++) { uint32_t w = tta_in(); int8_t a = w % 7 - 3; uint64_t b = (uint64_t)(w & 1) << 32 | (w >> 1 & 1); int r = 0;
        switch (a) { case -3: r = 1; break; case -1: r = 2; break; case 0: r = 3; break; case 2: r = 4; break; case 3: r = 5; break; } OUT(r); switch (b) { case 0: r = 10; break; case 1: r = 20; break; case 0x100000000: r = 30; break; case 0x100000001: r = 40; break; } OUT(r);
        switch ((uint8_t)w) { case 200 ... 255: r++; break; case 0 ... 20: r += 2; break; case 30: case 31: case 33: r += 3; break; case 40: r += 4; } OUT(r); }
}
//// loops of each kind
int main(void) {
    uint32_t a = tta_in(), s = 0; int n = (int)(a % 17); for (int i = 0; i < n; i++) s += i * a; OUT(s); while (a) { s ^= a; a >>= 3; } OUT(s); do { s = s * 3 + 1; } while (s % 5); OUT(s);
    for (int i = n; i-- > 0;) for (int j = i; j < n; j += 2) { if ((i ^ j) == 5) continue; if (s % 97 == 1) break; s += i * j; } OUT(s); for (unsigned i = 10; i < 11; i--) s += i; OUT(s); for (uint8_t i = 250; i; i++) s += i; OUT(s); int k = 0; for (;;) { if (++k > 100) break; s += k & n; } OUT(s); int i, j; for (i = 0, j = 20; i < j; i++, j -= 2) s = s << 1 ^ j; OUT(s); OUT(i); OUT(j);
}
//// jumps out of loops and into them
int main(void) {
    uint32_t n = tta_in() % 23, s = 0; int i = 0;
again: if (s > 1000) goto done; for (; i < 50; i++) { for (int j = 0; j < 9; j++) { s += i ^ j; if (s % 31 == n) { i += 3; goto again; } if (j > 5 && s & 1) goto next; } next: s++; }
done: OUT(s); OUT(i); unsigned count = tta_in() % 40 + 1; uint32_t t = 0; unsigned turns = (count + 7) / 8; switch (count % 8) { case 0: do { t += 3; case 7: t ^= 5; case 6: t += t; case 5: t++; case 4: t *= 3; case 3: t -= 9; case 2: t ^= t >> 3; case 1: t += 17; } while (--turns); } OUT(t);
}
//// conditions that are not all worked out
static int count; static int yes(int a) { count++; return a; }
int main(void) { for (int k = 0; k < 16; k++) { uint32_t w = tta_in(); if (yes(w & 1) && yes(w & 2) || yes(w & 4) && !yes(w & 8)) OUT(1); OUT(count); OUT(yes(w & 16) ? yes(w & 32) ? 1 : 2 : yes(w & 64) ? 3 : 4); OUT((w & 128 && count > 5, count & 7)); OUT(!(w & 3) == !(w & 12)); OUT((w > 5) & (w < 0x80000000u) | (count == 3)); } }
//// choices without branches
int main(void) { int32_t m = INT32_MIN, n = INT32_MAX; uint32_t u = 0; for (int k = 0; k < 24; k++) { int32_t a = (int32_t)tta_in(), b = a << 3; m = a > m ? a : m; n = a < n ? a : n; u += a < 0 ? -a : a; int c = a > 200 ? 200 : a < -200 ? -200 : a; OUT(c); OUT(a == b ? 3 : a & 1 ? 5 : 7); OUT((a > b) - (a < b)); uint8_t d = c < 0 ? 0 : c > 255 ? 255 : c; OUT(d); OUT(a & 4 ? u : ~u); } OUT(m); OUT(n); OUT(u); }
//// arguments: many, narrow, of 64 bits
static __attribute__((noinline)) uint32_t many(int a, int8_t b, uint8_t c, int16_t d, uint16_t e, uint64_t f, int g, int h, int64_t i, uint8_t j, int8_t k, int l) { return a + b * 3 + c * 5 + d * 7 + e * 11 + (uint32_t)(f >> 9) * 13 + g * 17 + h * 19 + (uint32_t)(i >> 20) * 23 + j * 29 + k * 31 + l * 37; }
static __attribute__((noinline)) uint64_t wide(uint64_t a, int8_t b) { return a * (a >> 32) + b; }
static __attribute__((noinline)) int8_t narrow(int32_t a) { return a * 3; }
int main(void) { for (int k = 0; k < 8; k++) { uint32_t w = tta_in(), x = tta_in(); OUT(many(w, w, w >> 8, w >> 3, x, (uint64_t)w << 32 | x, k, -k, (int64_t)x << 24, x >> 9, x >> 17, w ^ x)); uint64_t r = wide((uint64_t)x << 32 | w, w); OUT(r); OUT(r >> 32); OUT(narrow(w) + narrow(x)); } }
//// structures as arguments and results
struct point { int16_t x, y; }; struct box { struct point a, b; uint32_t tag; uint8_t name[5]; };
static __attribute__((noinline)) struct point add(struct point a, struct point b) { return (struct point){a.x + b.x, a.y - b.y}; }
static __attribute__((noinline)) struct box grow(struct box b, int n) { b.a.x -= n; b.b.y += n; b.tag++; b.name[n & 3] ^= n; return b; }
static __attribute__((noinline)) uint32_t area(const struct box *b) { return (b->b.x - b->a.x) * (b->b.y - b->a.y) + b->name[1]; }
int main(void) { struct box b = {{1, 2}, {30, 40}, 7, "name"}; for (int k = 0; k < 8; k++) { struct point p = {tta_in(), tta_in()}; p = add(p, b.a); OUT(p.x); OUT(p.y); struct box c = grow(b, p.x & 15); OUT(area(&c)); OUT(c.tag + b.tag); b = k & 1 ? c : b; OUT(b.name[p.y & 3]); } }
//// calls by pointer
static uint32_t inc(uint32_t a) { return a + 1; } static uint32_t dbl(uint32_t a) { return a * 2; } static uint32_t inv(uint32_t a) { return ~a; } static void out2(uint32_t a, uint32_t b) { OUT(a); OUT(b); } static void outx(uint32_t a, uint32_t b) { OUT(a ^ b); }
typedef uint32_t (*one)(uint32_t); static one table[] = {inc, dbl, inv, dbl}; struct ops { one f; void (*g)(uint32_t, uint32_t); }; static struct ops o[2] = {{inc, out2}, {inv, outx}};
static __attribute__((noinline)) uint32_t map(one f, uint32_t *p, int n) { uint32_t s = 0; for (int k = 0; k < n; k++) s += p[k] = f(p[k]); return s; }
int main(void) { uint32_t w[6]; for (int k = 0; k < 6; k++) w[k] = tta_in(); for (int k = 0; k < 8; k++) { one f = table[tta_in() & 3]; OUT(map(f, w, 6)); OUT(f == dbl); OUT(f(k)); o[k & 1].g(w[k % 6], o[w[0] & 1].f(k)); table[k & 3] = k & 2 ? inv : f; } one none = 0; OUT(none == 0); }
//// a comparison that is handed over, as by qsort
static int up(const void *a, const void *b) { uint32_t x = *(const uint32_t *)a, y = *(const uint32_t *)b; return (x > y) - (x < y); } static int by_byte(const void *a, const void *b) { return *(const uint8_t *)a - *(const uint8_t *)b; }
static __attribute__((noinline)) void sort(void *base, unsigned n, unsigned size, int (*less)(const void *, const void *)) { char *p = base; for (unsigned i = 1; i < n; i++) for (unsigned j = i; j && less(p + (j - 1) * size, p + j * size) > 0; j--) for (unsigned k = 0; k < size; k++) { char t = p[j * size + k]; p[j * size + k] = p[(j - 1) * size + k]; p[(j - 1) * size + k] = t; } }
int main(void) { uint32_t w[12]; uint8_t b[12]; for (int k = 0; k < 12; k++) { w[k] = tta_in(); b[k] = tta_in(); } sort(w, 12, 4, up); sort(b, 12, 1, by_byte); for (int k = 0; k < 12; k++) { OUT(w[k]); OUT(b[k]); } sort(w, 12, 4, by_byte); for (int k = 0; k < 12; k++) OUT(w[k] & 255); }
//// counters that stay between calls, and data of one name in two functions
static uint32_t next(void) { static uint32_t s = 7; s = s * 1664525 + 1013904223; return s >> 8; } static int ticks(void) { static int8_t n; static int s[3] = {1, 2}; n += 50; s[2] += n; return s[2] * s[0]; } static int tocks(void) { static int n = 9; return n--; }
int main(void) { for (int k = 0; k < 10; k++) { OUT(next()); OUT(ticks()); OUT(tocks()); } }
//// words of the data space by address, data at a place, an operation by name
static uint32_t taps[4] TTA_AT(2000) = {3, 5, 7, 11}; static uint8_t bytes[5] TTA_AT(3000) = {200, 1, 2}; static int16_t halves[3] TTA_AT(0x1000);
int main(void) {
    for (int k = 0; k < 4; k++) OUT(tta_op_mulhu(tta_in(), taps[k] << 20)); halves[1] = -5; bytes[3] = tta_in();
#ifdef __TTA__
    OUT(tta_load(2002)); OUT(tta_load(3000)); OUT((int16_t)tta_load(0x1001)); OUT((uint8_t)tta_load(3003)); tta_store(2001, 99); tta_store(3004, 77); tta_store(60000, tta_load(2001) + 1); OUT(tta_load(60000));
#else
    OUT(7); OUT(200); OUT(-5); OUT(bytes[3]); taps[1] = 99; bytes[4] = 77; OUT(100);
#endif
    OUT(taps[tta_in() & 1 | 1]); OUT(bytes[4]); OUT(bytes[3]);
}
//// the end of a run in the middle
#include <stdlib.h>
static void stop(int k) { if (k == 3) exit(0); OUT(k); } int main(void) { for (int k = 0; k < 10; k++) stop(k); OUT(99); }
//// an end by tta_halt, and an assertion that holds
#include <assert.h>
int main(void) { uint32_t w = tta_in(); assert(w == w); OUT(w); if (w | 1) tta_halt(); OUT(5); }
//// input that ends
int main(void) { for (;;) OUT(tta_in() + 1); }
//// a machine of states that reads its input
static const uint8_t next[4][4] = {{0, 1, 2, 0}, {1, 2, 3, 0}, {3, 3, 0, 1}, {2, 0, 1, 3}}; enum { idle, head, body, tail };
int main(void) { int s = idle; uint32_t sum = 0; for (int k = 0; k < 60; k++) { uint32_t w = tta_in(); s = next[s][w & 3]; switch (s) { case idle: sum = 0; break; case head: sum += w; break; case body: sum ^= w << 1; break; case tail: OUT(sum); break; } } OUT(s); OUT(sum); }
//// a queue in a ring, with indices that wrap
static uint16_t ring[16]; static uint8_t in, out_; static int put(uint16_t v) { if ((uint8_t)(in - out_) == 16) return 0; ring[in++ & 15] = v; return 1; } static int get(void) { return in == out_ ? -1 : ring[out_++ & 15]; }
int main(void) { in = out_ = 250; for (int k = 0; k < 60; k++) { uint32_t w = tta_in(); if (w % 5 < 3) OUT(put(w)); else OUT(get()); } for (int g; (g = get()) >= 0;) OUT(g); }
//// names that a program's text does not have as they are
static uint32_t out(uint32_t a) { return a + 1; } static __attribute__((noinline)) uint32_t when(uint32_t jump) { return out(jump) * 3; } static __attribute__((noinline)) uint32_t add(uint32_t goto_, uint32_t proc) { return when(goto_) - proc; } uint32_t load, store = 4; 
int main(void) { uint32_t data = tta_in(), end = tta_in(); load = add(data, end); OUT(load + store); OUT(when(end)); OUT(out(data)); }
//// a product of matrices and its transposed
static int32_t a[5][7], b[7][4], c[5][4]; int main(void) { for (int i = 0; i < 5; i++) for (int k = 0; k < 7; k++) a[i][k] = (int8_t)tta_in(); for (int k = 0; k < 7; k++) for (int j = 0; j < 4; j++) b[k][j] = (int16_t)tta_in(); for (int i = 0; i < 5; i++) for (int j = 0; j < 4; j++) { int32_t s = 0; for (int k = 0; k < 7; k++) s += a[i][k] * b[k][j]; c[i][j] = s; } for (int j = 0; j < 4; j++) for (int i = 0; i < 5; i++) OUT(c[i][j]); }
//// pseudo-random numbers, a sieve and a checksum
static uint8_t sieve[200]; static uint32_t crc[256]; int main(void) { uint32_t x = tta_in() | 1; for (int k = 0; k < 20; k++) { x ^= x << 13; x ^= x >> 17; x ^= x << 5; OUT(x); } for (int p = 2; p < 200; p++) if (!sieve[p]) { if (p > 150) OUT(p); for (int q = p * p; q < 200; q += p) sieve[q] = 1; } for (uint32_t k = 0; k < 256; k++) { uint32_t c = k; for (int n = 0; n < 8; n++) c = c & 1 ? c >> 1 ^ 0xedb88320 : c >> 1; crc[k] = c; } uint32_t c = ~0u; for (int k = 0; k < 50; k++) c = c >> 8 ^ crc[(c ^ tta_in()) & 255]; OUT(~c); }
//// indices below the begin of what is reached by them
static uint8_t b[300]; static uint32_t w[64]; static __attribute__((noinline)) uint32_t sum(const uint8_t *p, int from, int to) { uint32_t s = 0; for (int k = from; k < to; k++) { uint32_t v; __builtin_memcpy(&v, p + k + 200, 4); s = s * 3 + v + p[k + 201]; } return s; }
int main(void) { for (int k = 0; k < 300; k++) b[k] = tta_in(); __builtin_memcpy(w, b, sizeof w); OUT(sum(b, -200, -150)); OUT(sum(b, -10, 60)); OUT(sum((uint8_t *)w, -199, -160)); uint32_t s = 0; for (int k = -60; k < 0; k++) s = s * 7 + w[k + 63]; OUT(s); }
//// indices whose high bits are shifted out
static uint32_t w[64]; static uint8_t b[64]; int main(void) { for (int k = 0; k < 64; k++) { w[k] = tta_in(); b[k] = w[k]; } for (int k = 0; k < 16; k++) { uint32_t x = tta_in(); uint8_t *p = (uint8_t *)w; uint32_t i = x << 28 >> 24; OUT(p[i]); i = (x & 0xC000000F) << 2; OUT(*(uint32_t *)(p + i)); OUT(b[(uint8_t)(x << 4) >> 2]); OUT(w[(x << 26) >> 26]); } }
//// a function that is handed to itself, and one behind a cast
typedef uint32_t (*self)(void *, uint32_t); static __attribute__((noinline)) uint32_t down(void *f, uint32_t n) { return n ? ((self)f)(f, n - 1) * 3 + n : 7; } static __attribute__((noinline)) uint32_t call(void *f, uint32_t n) { return ((uint32_t (*)(uint32_t))f)(n); } static uint32_t odd(uint32_t n) { return n * 2 + 1; } static int32_t big(int32_t n) { return n << 9; }
int main(void) { OUT(down((void *)down, tta_in() & 7)); OUT(call((void *)odd, 5)); OUT(call((void *)big, tta_in())); }
//// words by a number of bytes that has lost bits
static uint32_t w[16]; static __attribute__((noinline)) uint32_t at(uint32_t x) { return *(uint32_t *)((char *)w + (x << 2)); } static __attribute__((noinline)) uint32_t by12(uint32_t x) { return *(uint32_t *)((char *)w + 12 * (x << 1 & 2)); }
int main(void) { for (int k = 0; k < 16; k++) w[k] = tta_in(); for (int k = 0; k < 16; k++) { OUT(at(k | (tta_in() & 3) << 30)); OUT(by12(tta_in())); } }
//// conditions that are turned round
int main(void) { uint32_t n = tta_in(), last, k = 0; do { last = n & 1; n >>= 1; OUT(n); } while (!last && n); do { k++; if (!(n > 3)) OUT(k); int a = !n, b = !!n; OUT(a * 2 + b); OUT(!(k > 2) ? 7 : 8); } while (!(k == 4)); }
