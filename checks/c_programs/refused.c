// What is not taken, each with the status, the place and a part of the line. Words in [..] are options, NO-OUT that no last word follows.
//// assembly
// 3 r.c:4: assembly within C
int main(void) {
    __asm__("nop");
}
//// a function of any number of arguments
// 3 r.c any number of arguments
#include <stdarg.h>
static __attribute__((noinline)) int f(int n, ...) { va_list a; va_start(a, n); int s = 0; while (n--) s += va_arg(a, int); va_end(a); return s; }
int main(void) { tta_out(f(2, tta_in(), 4) + f(1, 2)); }
//// a function that no file defines
// 3 r.c:4: nothing_there
int nothing_there(int);
int main(void) { tta_out(nothing_there(3)); }
//// data that no file defines
// 3 r.c: word is declared, but no file defines it
extern unsigned word;
int main(void) { tta_out(word); }
//// a place that is a number
// 3 r.c:3: made of a number
int main(void) { *(volatile unsigned *)0x1000 = 5; }
//// a place that comes from the input
// 3 r.c:3: made of a number
int main(void) { *(unsigned *)tta_in() = 5; }
//// an array whose length a run knows
// 3 r.c:3: known only as the program runs
static __attribute__((noinline)) unsigned f(unsigned n) { unsigned a[n]; for (unsigned k = 0; k < n; k++) a[k] = tta_in(); unsigned s = 0; for (unsigned k = 0; k < n; k++) s += a[n - 1 - k] * k; return s; }
int main(void) { tta_out(f(tta_in() & 7)); }
//// vectors
// 3 r.c:5: vectors
typedef int v4 __attribute__((vector_size(16)));
static v4 a, b;
int main(void) { a[0] = tta_in(); b = a * a + b; tta_out(b[tta_in() & 3]); }
//// a product of 100 bits
// 3 r.c arithmetic of integers of 100 bits
static _BitInt(100) a; int main(void) { a = tta_in(); a = a << 60 | tta_in(); a *= a; tta_out(a >> 70); }
//// no main
// 3 r.c no function main
int f(void) { return 1; }
//// C that is broken
// 2 r.c:4: expected expression
int main(void) {
    return + ; }
//// a file that is not there
// 1 tta [-I x nothing.c] there is no file nothing.c
int main(void) { }
//// a machine that is not there
// 1 tta [--machine nothing.machine] there is no file nothing.machine
int main(void) { }
//// a source in the place of the program that is written
// 1 tta [r.c NO-OUT] OUT.program comes last, and r.c is a source
int main(void) { }
//// a wrong option
// 1 tta [--slow] no such option: --slow
int main(void) { }
//// a number that is none
// 1 tta [--frame x] --frame takes a number, and not x
int main(void) { }
//// a data space that begins at word 0
// 1 tta [--base 0] word 0 is the null place
int main(void) { }
//// data at word 0
// 3 r.c null place
static unsigned a[2] TTA_AT(0); int main(void) { a[tta_in() & 1] = 1; }
//// two data at one place
// 3 r.c both have the word 101
static unsigned a[2] TTA_AT(100), b[2] TTA_AT(101); int main(void) { a[tta_in() & 1] = 1; b[tta_in() & 1] = 3; tta_out(a[1] + b[0]); }
//// an operation of three words
// 3 r.c:4: takes one or two
unsigned tta_op_fma(unsigned, unsigned, unsigned);
int main(void) { tta_out(tta_op_fma(1, 2, 3)); }
//// a standard operation of too few words
// 3 r.c:4: operation add with 1 words
unsigned tta_op_add(unsigned);
int main(void) { tta_out(tta_op_add(tta_in())); }
//// the address of a label
// 3 r.c label
int main(void) { static void *t[] = {&&a, &&b}; goto *t[tta_in() & 1]; a: tta_out(1); b: tta_out(2); }
//// a program of too many lines
// 3 r.c a text has at most 65536; the largest functions are the data with 70000
#define A(x) x, x + 1, x + 2, x + 3, x + 4, x + 5, x + 6, x + 7, x + 8, x + 9
#define B(x) A(x), A(x + 10), A(x + 20), A(x + 30), A(x + 40), A(x + 50), A(x + 60), A(x + 70), A(x + 80), A(x + 90)
#define C(x) B(x), B(x + 100), B(x + 200), B(x + 300), B(x + 400), B(x + 500), B(x + 600), B(x + 700), B(x + 800), B(x + 900)
#define D(x) C(x), C(x + 1000), C(x + 2000), C(x + 3000), C(x + 4000), C(x + 5000), C(x + 6000), C(x + 7000), C(x + 8000), C(x + 9000)
static const unsigned t[] = {D(1), D(1), D(1), D(1), D(1), D(1), D(1)};
int main(void) { tta_out(t[tta_in() % 70000]); }
//// data that a machine has no room for
// 3 r.c [--machine MACHINES/with_input.machine] the data need 2019 words, and the machine has 1024; the largest are t with 2000
static unsigned t[2000], u[3];
int main(void) { t[tta_in() % 2000] = 5; u[tta_in() % 3] = 7; tta_out(t[tta_in() % 2000] + u[2]); }
//// a frame that a machine has no room for
// 3 r.c [--frame 3] the frame needs
int main(void) { unsigned a = tta_in(), b = tta_in(), c = tta_in(), d = tta_in(), e = tta_in(); tta_out(a + b * c - d * e); tta_out(e); tta_out(a ^ b ^ c ^ d); }
//// a machine without loads
// 3 m.machine [--machine m.machine] the machine lacks ldw
int main(void) { }
//// an operation that the machine lacks
// 3 r.c:4: [--machine MACHINES/teaching.machine] the operation rotl, which the machine lacks
unsigned tta_op_rotl(unsigned, unsigned);
int main(void) { tta_out(tta_op_rotl(3, 4)); }
//// a stack without room for a first call
// 3 r.c: [--stack 3] the stack has 3 words, and a first call of sum needs 
static uint32_t sum(uint32_t n) { uint32_t a[3] = {n, n + 1, n * 3}; return n ? sum(n - 1) + a[n % 3] : 0; }
int main(void) { tta_out(sum(tta_in())); }
//// a heap for which a machine has no room
// 3 r.c [--machine MACHINES/large.machine --heap 600000] --heap N gives malloc fewer bytes
#include <stdlib.h>
static char names[40]; int main(void) { char *p = malloc(tta_in()); p[0] = tta_in(); p[tta_in()] = 3; names[tta_in() & 31] = p[1]; tta_out(names[tta_in() & 31]); char *q = malloc(9); q[tta_in() & 7] = p[2]; tta_out(q[3]); }
