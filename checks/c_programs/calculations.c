// Whole programs that calculate, each with several features at once. Each part is a program of its own.
//// a desk calculator: a table of functions by their names, texts that are taken apart, sums of 64 bits
#include <stdlib.h>
#include <string.h>
typedef int64_t binary(int64_t, int64_t);
static int64_t add(int64_t a, int64_t b) { return a + b; }
static int64_t subtract(int64_t a, int64_t b) { return a - b; }
static int64_t multiply(int64_t a, int64_t b) { return a * b; }
static int64_t divide(int64_t a, int64_t b) { return b ? a / b : 0; }
static int64_t rest(int64_t a, int64_t b) { return b ? a % b : a; }
static int64_t larger(int64_t a, int64_t b) { return a > b ? a : b; }
static const struct { const char *name; binary *function; } table[] = {
    {"+", add}, {"-", subtract}, {"*", multiply}, {"/", divide}, {"mod", rest}, {"max", larger},
};
static int64_t stack[16];
static int depth;
static int carry_out(const char *word)
{
    for (unsigned k = 0; k < sizeof table / sizeof *table; k++)
        if (!strcmp(word, table[k].name)) {
            if (depth < 2)
                return 1;
            depth--;
            stack[depth - 1] = table[k].function(stack[depth - 1], stack[depth]);
            return 0;
        }
    char *end;
    int64_t n = strtoll(word, &end, 10);
    if (*end || depth == 16)
        return 2;
    stack[depth++] = n;
    return 0;
}
static int evaluated(const char *line)
{
    char copy[64];
    int wrong = 0;
    strncpy(copy, line, sizeof copy - 1);
    copy[sizeof copy - 1] = 0;
    depth = 0;
    for (char *p = strtok(copy, " \t"); p && !wrong; p = strtok(NULL, " \t"))
        wrong = carry_out(p);
    return wrong ? wrong : depth == 1 ? 0 : 3;
}
int main(void)
{
    static const char *const lines[] = {
        "1 2 +", "100000 100000 * 100000 *", "-7 2 /", "-7 2 mod", "10000000000 7 mod", "3 4 max 5 max 2 -", "1 +", "12x", "1 2",
        "9223372036854775806 1 +", "4294967296 2147483647 *  \t 3 /",
    };
    for (unsigned k = 0; k < sizeof lines / sizeof *lines; k++) {
        int wrong = evaluated(lines[k]);
        OUT(wrong);
        if (!wrong) {
            OUT(stack[0]);
            OUT(stack[0] >> 32);
        }
    }
    return 0;
}
//// days and seconds: quotients of 64 bits, structures that are returned, a table of months
typedef struct { int64_t year; int month, day, hour, minute, second, weekday; } date;
static const uint8_t days_of[2][12] = {{31, 28, 31, 30, 31, 30, 31, 31, 30, 31, 30, 31}, {31, 29, 31, 30, 31, 30, 31, 31, 30, 31, 30, 31}};
static int is_leap(int64_t year) { return year % 4 == 0 && (year % 100 != 0 || year % 400 == 0); }
static int64_t floor_of(int64_t a, int64_t b) { return a / b - (a % b < 0); }
static date date_of(int64_t seconds)
{
    int64_t days = floor_of(seconds, 86400), left = seconds - days * 86400, year = 1970 + floor_of(days, days < 0 ? 365 : 366);
    date d = {.hour = (int)(left / 3600), .minute = (int)(left / 60 % 60), .second = (int)(left % 60), .weekday = (int)(((days + 4) % 7 + 7) % 7)};
    int64_t before = 365 * (year - 1970) + floor_of(year - 1, 4) - floor_of(year - 1, 100) + floor_of(year - 1, 400) - 477;
    while (days - before >= 365 + is_leap(year))
        before += 365 + is_leap(year++);
    left = days - before;
    while (left >= days_of[is_leap(year)][d.month])
        left -= days_of[is_leap(year)][d.month++];
    d.year = year;
    d.month++;
    d.day = (int)left + 1;
    return d;
}
static int64_t seconds_of(date d)
{
    int64_t y = d.year - (d.month <= 2), m = (d.month + 9) % 12;
    int64_t days = 365 * y + floor_of(y, 4) - floor_of(y, 100) + floor_of(y, 400) + (153 * m + 2) / 5 + d.day - 1 - 719468;
    return ((days * 24 + d.hour) * 60 + d.minute) * 60 + d.second;
}
int main(void)
{
    static const int64_t times[] = {0, -1, 951782399, 951782400, 4102444800, -2208988800, 253402300799, 1700000000};
    for (int k = 0; k < 12; k++) {
        int64_t t = k < 8 ? times[k] : (int64_t)(int32_t)tta_in() * 9;
        date d = date_of(t);
        OUT(d.year); OUT(d.month); OUT(d.day); OUT(d.hour); OUT(d.minute); OUT(d.second); OUT(d.weekday);
        OUT(seconds_of(d) == t);
    }
    return 0;
}
//// paths of bodies and a line through points: doubles, functions that are handed over, structures by value
typedef struct { double x, y, u, v; } state;
typedef state slope(state);
static void out_double(double d)
{
    union { double d; uint64_t w; } both = {d};
    OUT(both.w);
    OUT(both.w >> 32);
}
static state moved(state a, double h, state b) { return (state){a.x + h * b.x, a.y + h * b.y, a.u + h * b.u, a.v + h * b.v}; }
static state spring(state s) { return (state){s.u, s.v, -s.x, -2.5 * s.y - 0.125 * s.v}; }
static state attracted(state s)
{
    double r = s.x * s.x + s.y * s.y, f = -1.0 / (r * __builtin_sqrt(r));
    return (state){s.u, s.v, f * s.x, f * s.y};
}
static state step(slope *f, state s, double h)
{
    state a = f(s), b = f(moved(s, h / 2, a)), c = f(moved(s, h / 2, b)), d = f(moved(s, h, c));
    return moved(moved(moved(moved(s, h / 6, a), h / 3, b), h / 3, c), h / 6, d);
}
int main(void)
{
    slope *const slopes[] = {spring, attracted};
    for (int k = 0; k < 2; k++) {
        state s = {1.0, 0.5, 0.0, 0.75};
        for (int n = 0; n < 12; n++)
            s = step(slopes[k], s, 0.0625);
        out_double(s.x); out_double(s.y); out_double(s.u); out_double(s.v);
    }
    double n = 0, sx = 0, sy = 0, sxx = 0, sxy = 0;
    for (int k = 0; k < 10; k++) {
        double x = (int32_t)tta_in() / 65536.0, y = 3 * x - (double)(tta_in() % 1000) / 7;
        n += 1; sx += x; sy += y; sxx += x * x; sxy += x * y;
    }
    double b = (n * sxy - sx * sy) / (n * sxx - sx * sx), a = (sy - b * sx) / n;
    out_double(a); out_double(b);
    OUT((int)(b * 1000)); OUT(a < b); OUT((int64_t)(a * 1e6) >> 32); OUT((float)a == a);
    return 0;
}
//// a machine whose code is bytes: a switch, code as static data, a stack of calls
enum { END, PUSH, ADD, SUB, MUL, LESS, JUMP, BRANCH, CALL, RETURN, LOAD, STORE, PRINT, SWAP, COPY, DROP };
/* Fibonacci's numbers from the ninth down: the function that calls itself begins at 20. */
static const uint8_t code[] = {
    PUSH, 9, STORE, 0, LOAD, 0, CALL, 20, PRINT, LOAD, 0, PUSH, 1, SUB, COPY, STORE, 0, BRANCH, 4, END,
    COPY, PUSH, 2, LESS, BRANCH, 39, COPY, PUSH, 1, SUB, CALL, 20, SWAP, PUSH, 2, SUB, CALL, 20, ADD, RETURN, END,
};
/* How many words of the stack each step takes. */
static const uint8_t needs[] = {[ADD] = 2, 2, 2, 2, [BRANCH] = 1, [STORE] = 1, 1, 2, 1, 1};
static uint32_t stack[64], data[8];
static uint16_t calls[32];
static int run(const uint8_t *bytes, unsigned size, unsigned most)
{
    unsigned at = 0, top = 0, depth = 0, steps = 0;
    uint32_t a;
    while (at + 1 < size && steps++ < most && top < 60) {
        uint8_t op = bytes[at++];
        if (op < sizeof needs && top < needs[op])
            return -1;
        switch (op) {
        case END: OUT(steps); return (int)top;
        case PUSH: stack[top++] = (uint32_t)(int8_t)bytes[at++]; break;
        case ADD: top--; stack[top - 1] += stack[top]; break;
        case SUB: top--; stack[top - 1] -= stack[top]; break;
        case MUL: top--; stack[top - 1] *= stack[top]; break;
        case LESS: top--; stack[top - 1] = (int32_t)stack[top - 1] < (int32_t)stack[top]; break;
        case BRANCH: if (!stack[--top]) { at++; break; } /* fall through */
        case JUMP: at = bytes[at]; break;
        case CALL: if (depth == 32) return -2; calls[depth++] = (uint16_t)(at + 1); at = bytes[at]; break;
        case RETURN: if (!depth) return -3; at = calls[--depth]; break;
        case LOAD: stack[top++] = data[bytes[at++] & 7]; break;
        case STORE: data[bytes[at++] & 7] = stack[--top]; break;
        case PRINT: OUT(stack[--top]); break;
        case SWAP: a = stack[top - 1]; stack[top - 1] = stack[top - 2]; stack[top - 2] = a; break;
        case COPY: a = stack[top - 1]; stack[top++] = a; break;
        case DROP: top--; break;
        default: return -4;
        }
    }
    return -5;
}
int main(void)
{
    static uint8_t changed[sizeof code];
    OUT(run(code, sizeof code, 20000));
    OUT(stack[0]);
    for (int n = 0; n < 6; n++) {
        static const uint8_t safe[] = {PUSH, ADD, MUL, SUB, LESS, COPY, PUSH, PUSH};
        for (unsigned k = 0; k < sizeof code; k++)
            changed[k] = k % 2 ? safe[tta_in() % 8] : PUSH;
        changed[30 + n] = END;
        OUT(run(changed, sizeof code, 100));
        OUT(stack[0]); OUT(stack[1]);
    }
    return 0;
}
