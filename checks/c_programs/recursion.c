// Functions that call one another in a circle, each on a stack of its own. Each part is a program of its own.
//// one that calls itself twice
static uint32_t fib(uint32_t n) { return n < 2 ? n : fib(n - 1) + fib(n - 2); }
int main(void) { OUT(fib(tta_in() % 5 + 8)); OUT(fib(3)); OUT(fib(tta_in() % 4)); }
//// moves of a tower of discs
static uint8_t at[8]; static uint32_t moves, sum; static void move(int n, int from, int to) { if (!n) return; int over = 3 - from - to; move(n - 1, from, over); at[n] = to; moves++; sum = sum * 5 + n * 3 + from; move(n - 1, over, to); }
int main(void) { move(7, 0, 2); OUT(moves); OUT(sum); for (int k = 1; k < 8; k++) OUT(at[k]); move(3, 2, 1); OUT(sum); }
//// two that call each other, entered at both
static int odd(uint32_t n); static int even(uint32_t n) { OUT(n ^ 1); return n < 2 ? !n : odd(n - 1) + (n % 3 == 0); } static int odd(uint32_t n) { uint8_t t[3] = {n, n * 3, n * 5}; int r = n == 1 ? 1 : n == 0 ? 0 : even(n - 1); return r * 2 + t[n % 3]; }
int main(void) { OUT(even(9)); OUT(odd(tta_in() % 10)); OUT(even(tta_in() % 10 + 1)); }
//// sorting by halves, with an array on the stack
static void sort(uint32_t *a, unsigned n) { if (n < 2) return; uint32_t t[32]; unsigned h = n / 2; sort(a, h); sort(a + h, n - h); for (unsigned i = 0, j = h, k = 0; k < n; k++) t[k] = j == n || (i < h && a[i] <= a[j]) ? a[i++] : a[j++]; for (unsigned k = 0; k < n; k++) a[k] = t[k]; }
int main(void) { uint32_t w[32]; for (int k = 0; k < 32; k++) w[k] = tta_in(); sort(w, 32); for (int k = 0; k < 32; k++) OUT(w[k]); sort(w + 3, 7); OUT(w[5]); }
//// arguments and results of several words, and more arguments than a call carries
struct pair { uint32_t lo, hi; uint8_t tag; }; static struct pair walk(uint64_t a, int b, uint8_t c, int8_t d, int e, int f, int g, int h, int i) { struct pair p = {a, a >> 32, c}; if (b > 0) { struct pair q = walk(a * 3 + b, b - 1, c + 7, d - 1, f, g, h, i, e), r = walk(a >> 3, b - 2, d, c, e + 1, f, g, h, i ^ b); p.lo += q.lo ^ r.hi; p.hi -= q.hi * 5 + r.lo; p.tag = q.tag + r.tag * 3; } p.lo += e * 3 + f * 5 + g * 7 + h * 11 + i * 13; return p; }
int main(void) { uint32_t w[4]; for (int k = 0; k < 4; k++) w[k] = tta_in(); struct pair p = walk((uint64_t)w[0] << 32 | w[1], 6, w[2], w[3], 1, 2, 3, 4, 5); OUT(p.lo); OUT(p.hi); OUT(p.tag); }
//// expressions that are read by descent
static const char *p; static int sum(void); static int atom(void) { if (*p == '(') { p++; int v = sum(); p++; return v; } if (*p == '-') { p++; return -atom(); } int v = 0; while (*p >= '0' && *p <= '9') v = v * 10 + *p++ - '0'; return v; } static int product(void) { int v = atom(); while (*p == '*' || *p == '/') { char c = *p++; int w = atom(); v = c == '*' ? v * w : v / w; } return v; } static int sum(void) { int v = product(); while (*p == '+' || *p == '-') { char c = *p++; int w = product(); v = c == '+' ? v + w : v - w; } return v; }
static const char *const texts[] = {"1+2*3", "(4+5)*(6-7*2)", "-(3-10)*12/5", "((((8))))", "100/7/2-(-3)*(2+(1-4)*5)"}; int main(void) { for (int k = 0; k < 5; k++) { p = texts[(k + (tta_in() & 0)) % 5]; OUT(sum()); } }
//// a tree with pointers to the stack of callers
struct link { const struct link *up; uint16_t name; }; static uint32_t total; static void visit(const struct link *up, unsigned depth, unsigned name) { struct link me = {up, name}; uint32_t s = 0; for (const struct link *l = &me; l; l = l->up) s = s * 17 + l->name; total = total * 3 + s; if (depth) for (unsigned k = 0; k < 3; k++) visit(&me, depth - 1, name * 4 + k); me.name++; total ^= me.name; }
int main(void) { visit(0, 4, tta_in() & 15); OUT(total); visit(0, 2, 9); OUT(total); }
//// a call by pointer that leads back
typedef int (*rule)(int); static int a(int), b(int), c(int); static rule rules[] = {a, b, c}; static int go(int n, int k) { return n <= 0 ? k : rules[k % 3](n); } static int a(int n) { return go(n - 1, n) + 1; } static int b(int n) { return go(n - 2, n + 1) * 2; } static int c(int n) { return go(n - 3, n) ^ n; }
int main(void) { for (int k = 0; k < 9; k++) OUT(go(k + (tta_in() & 3), k)); }
//// placings of queens, with bytes on the stack and marks
static unsigned count; static void place(unsigned n, unsigned row, unsigned cols, unsigned down, unsigned up) { if (row == n) { count++; return; } for (unsigned free = ~(cols | down | up) & ((1u << n) - 1); free; free &= free - 1) { unsigned bit = free & -free; place(n, row + 1, cols | bit, (down | bit) << 1, (up | bit) >> 1); } }
int main(void) { place(5, 0, 0, 0, 0); OUT(count); place(4 + (tta_in() & 2), 0, 0, 0, 0); OUT(count); }
//// Ackermann's function, and one with 64 bits
static uint32_t ack(uint32_t m, uint32_t n) { return !m ? n + 1 : !n ? ack(m - 1, 1) : ack(m - 1, ack(m, n - 1)); } static uint64_t power(uint64_t a, uint32_t n) { if (!n) return 1; uint64_t h = power(a, n / 2); return n & 1 ? h * h * a : h * h; }
int main(void) { OUT(ack(2, tta_in() % 3)); OUT(ack(1, 5)); uint64_t p = power(tta_in() | 1, 37); OUT(p); OUT(p >> 32); OUT(power(3, 20) / 7); }
