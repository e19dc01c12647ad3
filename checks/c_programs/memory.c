// Data: arrays, structures, unions, pointers, copies. Each part is a program of its own.
//// arrays of each width
static uint8_t a[16]; static int8_t b[16]; static uint16_t c[16]; static int16_t d[16]; static uint32_t e[16]; static uint64_t f[16];
int main(void) {
    for (int k = 0; k < 16; k++) { uint32_t w = tta_in(); a[k] = w; b[k] = w >> 3; c[k] = w; d[k] = w >> 7; e[k] = w; f[k] = (uint64_t)w * w; }
    for (int k = 0; k < 16; k++) { int j = (k * 7) & 15; a[j] += b[k]; d[j] -= c[k]; e[k] ^= f[j]; OUT(a[k]); OUT(b[j]); OUT(c[k]); OUT(d[k]); OUT(e[k]); OUT(f[j]); OUT(f[j] >> 32); }
}
//// structures within arrays within structures
struct in { uint8_t x; uint16_t y[3]; int8_t z; }; struct out { struct in i[4]; uint32_t w; uint64_t v; struct in *p; };
static struct out o[3];
int main(void) {
    for (int k = 0; k < 3; k++) for (int j = 0; j < 4; j++) { struct in *q = &o[k].i[j]; q->x = tta_in(); for (int n = 0; n < 3; n++) q->y[n] = tta_in() >> n; q->z = q->x; o[k].w += q->y[1]; o[k].v = o[k].w * 3ull << 20; o[k].p = &o[(k + 1) % 3].i[j]; }
    struct in copy = o[1].i[2]; o[2].i[0] = copy; o[0] = o[2];
    for (int k = 0; k < 3; k++) { OUT(o[k].w); OUT(o[k].v >> 16); OUT(o[k].p->x); OUT(o[k].p->y[2]); for (int j = 0; j < 4; j++) { OUT(o[k].i[j].z); OUT(o[k].i[j].y[0]); } }
    OUT(sizeof(struct in)); OUT(o[0].p == o[2].p); OUT(&o[1].i[3] - &o[1].i[0]);
}
//// packed structures, whose words stand where they like
struct __attribute__((packed)) tight { uint8_t a; uint32_t b; uint16_t c; uint64_t d; int8_t e; int32_t f; };
static struct tight t[5];
int main(void) {
    for (int k = 0; k < 5; k++) { t[k].a = tta_in(); t[k].b = tta_in(); t[k].c = tta_in(); t[k].d = (uint64_t)tta_in() << 32 | tta_in(); t[k].e = tta_in(); t[k].f = tta_in(); }
    struct tight s = t[3]; t[3] = t[1]; t[1] = s;
    for (int k = 0; k < 5; k++) { struct tight *p = &t[(k * 3) % 5]; OUT(p->a); OUT(p->b); OUT(p->c); OUT(p->d); OUT(p->d >> 32); OUT(p->e); OUT(p->f); p->b += p->c; OUT(p->b); }
    OUT(sizeof t);
}
//// unions: a word as its bytes
union both { uint32_t w; uint8_t b[4]; uint16_t h[2]; int8_t s[4]; };
int main(void) {
    union both u, v[3];
    for (int k = 0; k < 6; k++) { u.w = tta_in(); OUT(u.b[tta_in() & 3]); OUT(u.h[k & 1]); u.b[k & 3] = 0x5a; OUT(u.w); OUT(u.s[2]); v[k % 3] = u; v[k % 3].h[1] ^= 0xffff; OUT(v[k % 3].w); uint8_t t = u.b[0]; u.b[0] = u.b[3]; u.b[3] = t; OUT(u.w); }
}
//// bytes of words through pointers of characters
static uint32_t w[8];
static uint32_t sum(const unsigned char *p, unsigned n) { uint32_t a = 1, b = 0; while (n--) { a = (a + *p++) % 65521; b = (b + a) % 65521; } return b << 16 | a; }
int main(void) {
    for (int k = 0; k < 8; k++) w[k] = tta_in();
    OUT(sum((unsigned char *)w, sizeof w)); OUT(sum((unsigned char *)w + 3, 17));
    unsigned char *p = (unsigned char *)&w[2]; p[1] = 7; p[-1] = 9; OUT(w[2]); OUT(w[1]); for (int k = 0; k < 8; k++) OUT(w[k]);
}
//// words that stand anywhere among bytes
static uint8_t text[64];
static uint32_t get(const uint8_t *p) { uint32_t v; __builtin_memcpy(&v, p, 4); return v; }
static void put(uint8_t *p, uint32_t v) { __builtin_memcpy(p, &v, 4); }
int main(void) {
    for (int k = 0; k < 64; k++) text[k] = tta_in() >> (k & 15);
    for (int k = 0; k < 16; k++) { unsigned at = tta_in() % 60; uint32_t v = get(text + at); OUT(v); put(text + (at + 13) % 60, v * 3); uint16_t h; __builtin_memcpy(&h, text + at, 2); OUT(h); uint64_t d; __builtin_memcpy(&d, text + at % 56, 8); OUT(d >> 24); }
    for (int k = 0; k < 64; k++) OUT(text[k]);
}
//// copies and fills of each kind
#include <string.h>
static uint8_t b[80]; static uint16_t h[40]; static uint32_t w[20]; struct s { uint32_t a; uint8_t b[5]; uint16_t c; } x[6];
int main(void) {
    for (int k = 0; k < 80; k++) b[k] = tta_in(); for (int k = 0; k < 40; k++) h[k] = tta_in(); for (int k = 0; k < 20; k++) w[k] = tta_in();
    unsigned n = tta_in() % 20; memcpy(b + 40, b + 3, n); memmove(b + 1, b, 30); memmove(b + 50, b + 55, 20); memset(b + 60, (int)n, 5); memset(h + 3, 0, 2 * n); memcpy(h + 20, h + 1, n * 2 & ~1u); memset(w + 2, 0x11, 12); memmove(w + 5, w + 4, n); memcpy(w, w + 10, 16);
    memset(x, 0xff, sizeof x); x[1].b[2] = 7; x[3] = x[1]; memcpy(&x[4], &x[3], sizeof *x); memmove(&x[0], &x[1], 2 * sizeof *x);
    for (int k = 0; k < 80; k++) OUT(b[k]); for (int k = 0; k < 40; k++) OUT(h[k]); for (int k = 0; k < 20; k++) OUT(w[k]); for (int k = 0; k < 6; k++) { OUT(x[k].a); OUT(x[k].b[2]); OUT(x[k].c); }
    OUT(memcmp(b, b + 1, 40) < 0); OUT(memcmp(b + 7, b + 7, 9));
}
//// strings
#include <string.h>
static char a[64] = "transport", b[64]; static const char *names[] = {"move", "bus", "", "trigger", "socket"}; static const char table[][6] = {"one", "two", "three"};
int main(void) {
    strcpy(b, a); OUT(strlen(b)); OUT(strcmp(a, b)); b[2] = 'u'; OUT(strcmp(a, b) < 0); OUT(strncmp(a, b, 2)); OUT(strchr(a, 'p') - a); OUT(strchr(a, 'z') == 0);
    for (int k = 0; k < 5; k++) { OUT(strlen(names[k])); for (const char *p = names[k]; *p; p++) OUT(*p); } for (int k = 0; k < 3; k++) OUT(table[k][k]);
    uint32_t h = 5381; for (char *p = a; *p; p++) h = h * 33 ^ (unsigned char)*p; OUT(h); OUT("\\\"\001z\377"[tta_in() % 5] & 255); OUT(memchr(a, 's', 9) == a + 3);
}
//// lists of structures with pointers to themselves
struct node { int key; struct node *left, *right; uint8_t tag; }; static struct node pool[40]; static int used;
static struct node **find(struct node **p, int key) { while (*p && (*p)->key != key) p = key < (*p)->key ? &(*p)->left : &(*p)->right; return p; }
int main(void) {
    struct node *root = 0;
    for (int k = 0; k < 40; k++) { int key = (int)(tta_in() % 50); struct node **p = find(&root, key); if (!*p) { *p = &pool[used++]; (*p)->key = key; } (*p)->tag++; }
    struct node *stack[40]; int n = 0; struct node *p = root; while (n || p) { while (p) { stack[n++] = p; p = p->left; } p = stack[--n]; OUT(p->key); OUT(p->tag); p = p->right; } OUT(used);
}
//// pointers that go through arrays, differences and comparisons
static int16_t v[32]; static uint8_t m[6][7]; static uint32_t q[10];
int main(void) {
    for (int16_t *p = v; p < v + 32; p++) *p = tta_in(); for (int16_t *p = v + 31; p >= v + 1; p -= 2) *p -= p[-1];
    int16_t *lo = v, *hi = v + 31; while (lo < hi) { int16_t t = *lo; *lo++ = *hi; *hi-- = t; } OUT(lo - v); OUT(hi - v); for (int k = 0; k < 32; k++) OUT(v[k]);
    for (uint8_t *p = &m[0][0]; p != &m[0][0] + 42; p++) *p = (p - &m[0][0]) * 5; uint8_t (*r)[7] = m + 2; OUT(r[1][3]); OUT((*r)[6]); OUT(&r[2][0] - &m[0][0]); for (int i = 0; i < 6; i++) for (int j = 0; j < 7; j += 3) OUT(m[i][j]);
    uint32_t *e = q + 10; for (int k = -10; k < 0; k++) e[k] = k * k; uint32_t s = 0; for (int k = -5; k < 5; k++) s = s * 3 + q[k + 5]; OUT(s); OUT(*(1 + q)); OUT(3[q]); OUT(&q[7] > &q[3]); OUT((char *)&q[7] - (char *)&q[3]);
}
//// places as numbers: low bits as marks, and alignment
static uint32_t d[16] __attribute__((aligned(16))); static char buf[64];
int main(void) {
    uintptr_t p = (uintptr_t)&d[tta_in() & 7]; p |= 1; OUT(p & 3); uint32_t *q = (uint32_t *)(p & ~(uintptr_t)3); *q = 77; uint32_t s = 0; for (int k = 0; k < 16; k++) s += d[k] * k; OUT(s > 0);
    char *a = (char *)(((uintptr_t)buf + 13 + 7) & ~(uintptr_t)7); OUT((uintptr_t)a % 8); OUT(a - buf >= 13 && a - buf < 21); *a = 5; *(uint32_t *)a = 0x01020304; OUT(a[0] + a[3] * 16); uintptr_t x = (uintptr_t)(d + 5); x += 4 * sizeof *d; *(uint32_t *)x = 99; OUT(d[9]); OUT(((uintptr_t)&d[4] - (uintptr_t)&d[1]) / 4); OUT((uintptr_t)&d[3] > (uintptr_t)&d[2]);
}
//// a pointer that is a number in a union
union pn { uint32_t *p; uintptr_t n; }; static uint32_t d[8] = {1, 2, 3, 4, 5, 6, 7, 8}; static uintptr_t kept[2];
int main(void) {
    union pn u; u.p = d + (tta_in() & 1); u.n += 2 * sizeof *d; OUT(*u.p - *d >= 2); uint32_t *q = u.p; OUT(u.n == (uintptr_t)q); OUT((uintptr_t)(d + 3) - (uintptr_t)d == 3 * sizeof *d); kept[1] = (uintptr_t)&d[5]; kept[0] = kept[1] - 4; OUT(*(uint32_t *)kept[0] + *(uint32_t *)kept[1]); struct { uint32_t *a; int b; } x = {d + 2, 7}, y; __builtin_memcpy(&y, &x, sizeof x); OUT(*y.a + y.b);
}
//// data with first words of each kind
struct r { const char *name; uint16_t a[3]; struct { int8_t x, y; } p; const uint32_t *w; int (*f)(int); };
static int twice(int a) { return 2 * a; } static int less(int a) { return a - 1; } static const uint32_t w[4] = {5, 6, 7}; static int64_t big[2] = {-5, 0x123456789abcdef};
static const struct r t[] = {{"ab", {1, 65535, 3}, {-1, 2}, w + 1, twice}, {"c", {4}, {.y = -128}, &w[3], less}, [3] = {.name = "zz", .w = w, .f = twice}}; static uint8_t grid[3][3] = {{1, 2, 3}, [2] = {7, 8, 9}};
int main(void) { for (int k = 0; k < 4; k++) { const struct r *p = &t[(k + tta_in()) & 3]; if (p->name) { OUT(p->name[0]); OUT(*p->w); OUT(p->f(tta_in())); } OUT(p->a[1]); OUT(p->p.x); OUT(p->p.y); } OUT(big[tta_in() & 1] >> 32); for (int k = 0; k < 9; k++) OUT(grid[k / 3][k % 3]); OUT(sizeof t / sizeof *t); }
//// arrays on the stack, in functions that call one another
static uint32_t leaf(const uint8_t *p, int n) { uint16_t t[8]; uint32_t s = 0; for (int k = 0; k < 8; k++) t[k] = p[k % n] * 3; for (int k = 0; k < 8; k++) s = s * 5 + t[(k * 3) & 7]; return s; }
static __attribute__((noinline)) uint32_t mid(uint32_t x) { uint8_t b[12]; for (int k = 0; k < 12; k++) b[k] = x >> k; uint32_t r = leaf(b, 12) ^ leaf(b + 3, 5); int32_t c[4] = {-1, -2, -3, -4}; c[x & 3] = r; return c[0] + c[1] * c[2] - c[3] + b[7]; }
static __attribute__((noinline)) uint32_t other(uint32_t x) { int8_t b[9]; for (int k = 0; k < 9; k++) b[k] = x >> (2 * k); int s = 0; for (int k = 0; k < 9; k++) s = s * 7 + b[k]; return s; }
int main(void) { for (int k = 0; k < 8; k++) { uint32_t w = tta_in(); OUT(mid(w)); OUT(other(w)); OUT(mid(w >> 9)); } }
//// a heap that gives and does not take back
#include <stdlib.h>
struct cell { uint8_t v; struct cell *next; };
int main(void) { struct cell *head = 0; for (int k = 0; k < 20; k++) { struct cell *c = malloc(sizeof *c); c->v = tta_in(); c->next = head; head = c; } for (struct cell *c = head; c; c = c->next) OUT(c->v); uint32_t *z = calloc(5, sizeof *z); z[3] += 4; OUT(z[0] + z[3]); uint16_t *h = malloc(6); h[0] = tta_in(); h[2] = h[0] * 3; OUT(h[2]); free(h); }
//// volatile words, and a union of a structure and bytes
static volatile uint32_t v; static volatile int8_t s[4];
union packet { struct { uint8_t kind, length; uint16_t sum; uint32_t body; } f; uint8_t raw[8]; };
int main(void) { v = tta_in(); OUT(v + v); v++; OUT(v); for (int k = 0; k < 4; k++) s[k] = v >> k; OUT(s[0] + s[1] * s[2] - s[3]); union packet p; for (int k = 0; k < 8; k++) p.raw[k] = tta_in(); OUT(p.f.kind); OUT(p.f.length); OUT(p.f.sum); OUT(p.f.body); p.f.sum += 300; p.f.kind = 1; uint32_t t = 0; for (int k = 0; k < 8; k++) t = t * 257 + p.raw[k]; OUT(t); }
//// functions of the library that a program has itself
typedef __SIZE_TYPE__ size; static int calls;
#ifdef __TTA__
#define MINE(name) name
#else
#define MINE(name) my_##name
#endif
void *MINE(memcpy)(void *to, const void *from, size n) { char *a = to; const char *b = from; calls++; while (n--) *a++ = *b++; return to; } size MINE(strlen)(const char *s) { calls += 10; size n = 0; while (*s++) n++; return n; } void *MINE(malloc)(size n) { static uint32_t room[8]; calls += 100; return n < 32 ? room : 0; }
int main(void) { char t[9], *p = MINE(malloc)(12); MINE(memcpy)(t, "whatever", 9); MINE(memcpy)(p, t + (tta_in() & 3), 5); p[5] = 0; OUT(MINE(strlen)(p)); for (int k = 0; k < 5; k++) OUT(p[k]); OUT(calls); OUT(MINE(malloc)(99) == 0); }
//// places rounded to words, copies that begin within words, unions of places and numbers
#include <string.h>
union u { uint32_t w; uint8_t *p; uint16_t h[2]; uint8_t b[4]; };
static uint8_t buf[64]; static uint32_t tab[16];
static __attribute__((noinline)) uint32_t low(const void *p) { return (uint32_t)(uintptr_t)p & 3; }
static __attribute__((noinline)) uint8_t *align(uint8_t *p) { return (uint8_t *)(((uintptr_t)p + 3) & ~(uintptr_t)3); }
struct q { uint8_t tag; uint32_t v[3]; uint16_t h; };
int main(void) {
  uint32_t n = tta_in() & 15;
  for (int k = 0; k < 64; k++) buf[k] = k * 7 + n;
  uint8_t *p = align(buf + (n & 7) + 1);
  tta_out(p - buf); tta_out(*p);
  tta_out(low(p)); tta_out(low(tab + n));
  union u u; u.p = buf + n; union u w; memcpy(&w, &u, sizeof u); tta_out(*w.p);
  w.w += 2; tta_out(*w.p);
  uint32_t x; memcpy(&x, buf + n, 4); tta_out(x);
  memcpy((uint8_t *)tab + n, buf + 3, 13); for (int k = 0; k < 8; k++) tta_out(tab[k]);
  struct q a[3]; memset(a, n, sizeof a); a[n % 3].v[1] = 77; a[1].h = 99; struct q b = a[n % 3]; tta_out(b.tag); tta_out(b.v[1]); tta_out(b.v[2]); tta_out(b.h);
  uint8_t *r = (uint8_t *)&a[1]; uint32_t s = 0; for (unsigned k = 0; k < sizeof(struct q); k++) if (k == 0 || k >= 4 && k < 18) s = s * 31 + r[k]; tta_out(s);
  memmove(buf + 1, buf, 40); memmove(buf + 20, buf + 21, 30); s = 0; for (int k = 0; k < 64; k++) s = s * 31 + buf[k]; tta_out(s);
  uint16_t *hp = (uint16_t *)(buf + 2 * (n & 3)); hp[1] = 0x1234; hp[2] += hp[0]; for (int k = 0; k < 12; k++) tta_out(buf[k]);
  return 0; }
//// narrow data with signs, places counted backwards and after the end, packed records
#include <string.h>
static int8_t c[40]; static int16_t h[40]; static int64_t d[6]; static uint32_t w[40];
static __attribute__((noinline)) int find(const int16_t *lo, const int16_t *hi, int x) { const int16_t *p = hi; while (p-- != lo) if (*p == x) return p - lo; return -1; }
static __attribute__((noinline)) long diff(const int8_t *a, const int8_t *b) { return a - b; }
static __attribute__((noinline)) void back(uint32_t *e, int n) { for (int k = -1; k >= -n; k--) e[k] = k * 3; }
static __attribute__((noinline)) int cmp(const void *a, const void *b) { return a < b ? -1 : a > b; }
struct bf { signed a : 3; unsigned b : 7; signed c : 22; } ; struct __attribute__((packed)) pk { uint8_t t; uint32_t v; int16_t s; uint64_t q; };
static struct pk pks[5];
int main(void) {
  uint32_t n = tta_in() & 15;
  for (int k = 0; k < 40; k++) { c[k] = k * 37 - 100; h[k] = k * 3001 - 9000; }
  tta_out(find(h, h + 40, h[n])); tta_out(find(h, h + 40, 12345)); tta_out(diff(c + n, c + 30)); tta_out(diff(c + 30, c + n));
  back(w + 40, 30 + (n & 7)); uint32_t s = 0; for (int k = 0; k < 40; k++) s = s * 31 + w[k]; tta_out(s);
  tta_out(cmp(w + n, w + 5)); tta_out(cmp(c + n, c + 39));
  struct bf f = {n, n * 9, -(int)n * 1001}; f.a--; f.c *= 3; f.b += 100; tta_out(f.a); tta_out(f.b); tta_out(f.c);
  for (int k = 0; k < 5; k++) { pks[k].t = k + n; pks[k].v = k * 0x01010101u + n; pks[k].s = -k * 1000; pks[k].q = (uint64_t)k * 0x123456789abULL; }
  for (int k = 0; k < 5; k++) { struct pk *p = &pks[(k + n) % 5]; tta_out(p->t + p->v); tta_out(p->s); tta_out(p->q); tta_out(p->q >> 32); }
  d[n % 6] = -(int64_t)n << 33; d[1] ^= d[n % 6] >> 7; tta_out(d[1]); tta_out(d[1] >> 32); int32_t *half = (int32_t *)&d[2]; memset(d, 0x81, 24); s = 0; for (int k = -4; k < 2; k++) s = s * 7 + half[k]; tta_out(s);
  int8_t *q = c + 39; int t = 0; do { t = t * 5 + *q; } while (q-- > c + n); tta_out(t);
  for (int k = 0; k < 40; k++) if (c[k] < h[k] / 100) t += k; tta_out(t);
  const int8_t *e = memchr(c, c[n + 7], 40); tta_out(e - c);
  return 0; }
//// records in a pool of bytes, links that are exclusive ors of places, records exchanged byte by byte
#include <string.h>
struct n { struct n *next; uint16_t k; uint8_t v; }; static _Alignas(8) uint8_t pool[400]; static unsigned used;
static void *take(unsigned s) { void *p = pool + used; used += (s + 7) & ~7u; return p; }
static struct n *tab[8];
static unsigned hash(uint16_t k) { return (k * 40503u >> 13) & 7; }
static void put(uint16_t k, uint8_t v) { struct n *n = take(sizeof *n); n->next = tab[hash(k)]; n->k = k; n->v = v; tab[hash(k)] = n; }
static int get(uint16_t k) { for (struct n *n = tab[hash(k)]; n; n = n->next) if (n->k == k) return n->v; return -1; }
static uint32_t words[6]; static uintptr_t links[6];
typedef uint32_t (*op)(uint32_t, uint32_t); static uint32_t f(uint32_t a, uint32_t b) { return a * 3 + b; } static uint32_t g(uint32_t a, uint32_t b) { return a ^ b << 2; } static uint32_t e(uint32_t a, uint32_t b) { return a - b; }
struct t { uint8_t tag; op o; void *arg; }; static struct t ts[3];
static void swap(void *a, void *b, unsigned n) { uint8_t *x = a, *y = b; while (n--) { uint8_t t = *x; *x++ = *y; *y++ = t; } }
int main(void) {
  uint32_t n = tta_in() & 15;
  for (unsigned k = 0; k < 20; k++) put(k * 77 + n, k * 5);
  for (unsigned k = 0; k < 25; k++) tta_out(get(k * 77 + n));
  for (unsigned k = 0; k < 6; k++) { words[k] = k * k + n; links[k] = (uintptr_t)&words[(k + 1) % 6] ^ (uintptr_t)&words[(k + 5) % 6]; }
  uintptr_t prev = (uintptr_t)&words[5], at = (uintptr_t)&words[0]; for (unsigned k = 0; k < 9; k++) { tta_out(*(uint32_t *)at); uintptr_t next = prev ^ links[(uint32_t *)at - words]; prev = at; at = next; }
  ts[0] = (struct t){1, f, &words[1]}; ts[1] = (struct t){2, g, &words[2]}; ts[2] = (struct t){3, e, &words[3]};
  swap(&ts[0], &ts[2], sizeof ts[0]); swap(&ts[n % 3], &ts[1], sizeof ts[0]); for (int k = 0; k < 3; k++) tta_out(ts[k].o(*(uint32_t *)ts[k].arg, ts[k].tag + n));
  uint32_t *ps[4] = {words, words + 2, words + 4, words + 1}; uint32_t **a = ps + (n & 1), **b = ps + 2; swap(a, b, sizeof *a); for (int k = 0; k < 4; k++) tta_out(*ps[k]);
  uint8_t bytes[sizeof(void *) * 2]; memcpy(bytes + 1, &ps[1], sizeof(void *)); uint32_t *back; memcpy(&back, bytes + 1, sizeof back); tta_out(*back);
  return 0; }
//// rows of records, fills and moves of a length that the run tells, indices of eight and 64 bits
#include <string.h>
typedef struct { uint8_t r, g, b; } px; static px img[4][5]; static uint16_t m[3][7]; static volatile uint8_t port; static _Bool flags[9];
static __attribute__((noinline)) void blit(px *d, const px *s, int n) { while (n--) *d++ = *s++; }
static __attribute__((noinline)) uint32_t sum16(const uint16_t *p, uint8_t from, uint8_t to) { uint32_t s = 0; for (uint8_t k = from; k != to; k++) s = s * 3 + p[k]; return s; }
static __attribute__((noinline)) int idx(const int8_t *p, int8_t k) { return p[k]; }
static __attribute__((noinline)) uint32_t at64(const uint32_t *p, int64_t k) { return p[k]; }
static __attribute__((noinline)) uint32_t wrap(const uint32_t *p, uint32_t k) { return p[k * 4 + 3]; }
static __attribute__((noinline)) void fill(void *p, int v, unsigned n) { memset(p, v, n); }
static __attribute__((noinline)) void move(void *d, const void *s, unsigned n) { memmove(d, s, n); }
struct big { uint32_t a[9]; uint8_t t; }; static struct big bigs[3];
static __attribute__((noinline)) struct big twist(struct big x, int k) { x.a[k % 9] ^= x.a[(k + 1) % 9]; x.t += k; return x; }
int main(void) {
  uint32_t n = tta_in() & 15; int8_t s8[256]; for (int k = 0; k < 256; k++) s8[k] = k * 5;
  for (int y = 0; y < 4; y++) for (int x = 0; x < 5; x++) img[y][x] = (px){y * 5 + x, n + x, y ^ x};
  blit(img[1], img[2] + 1, 4); blit(&img[0][n % 3], img[3], 2); for (int k = 0; k < 20; k++) { px *p = &img[0][0] + k; tta_out(p->r | p->g << 8 | p->b << 16); }
  for (int k = 0; k < 21; k++) m[0][k] = k * 3001; tta_out(sum16(m[0], n, n + 5)); tta_out(sum16(m[1], 250 + n - 250, 3 + n));
  tta_out(idx(s8 + 128, -(int)n - 100)); tta_out(idx(s8 + 128, n)); uint32_t w[40]; for (int k = 0; k < 40; k++) w[k] = k * k; tta_out(at64(w + 20, -(int64_t)n)); tta_out(at64(w, n)); tta_out(wrap(w, n & 7));
  fill(img, n, 7 + n); move((uint8_t *)img + 3, (uint8_t *)img + 1, 20 + n); move((uint8_t *)img, (uint8_t *)img + 5 + n, 30); uint32_t s = 0; for (int k = 0; k < 60; k++) s = s * 31 + ((uint8_t *)img)[k]; tta_out(s);
  fill(w + 1, 0x5a, 4 * n); fill((uint8_t *)w + 70, n, n); s = 0; for (int k = 0; k < 40; k++) s = s * 31 + w[k]; tta_out(s);
  for (int k = 0; k < 3; k++) { for (int j = 0; j < 9; j++) bigs[k].a[j] = j * k + n; bigs[k].t = k; } bigs[1] = twist(bigs[n % 3], n); bigs[0] = bigs[1]; bigs[0].a[3]++; for (int j = 0; j < 9; j++) tta_out(bigs[0].a[j] + bigs[1].a[j]); tta_out(bigs[0].t);
  for (int k = 0; k < 9; k++) flags[k] = (n + k) & 2; for (int k = 0; k < 9; k++) tta_out(flags[k] + flags[(k + n) % 9] * 2);
  port = n; port += 250; tta_out(port); uint8_t c = 200; c += n * 9; c >>= 1; tta_out(c); int8_t i = c; i <<= 3; tta_out(i); i = -i / 3; tta_out(i); tta_out(i % 7); tta_out((uint16_t)(i * 300) / 7u);
  
  return 0; }
