/* Three pairs of functions that call each other, one of which calls another pair: each has a stack of its own. */
#include "tta.h"

static int odd(int n);

static int even(int n)
{
    int marks[3] = {n, n + 1, n * 2};
    return n == 0 ? 1 : odd(n - 1) + (marks[n % 3] - n);
}

static int odd(int n)
{
    return n == 0 ? 0 : even(n - 1);
}

static int f(int n);

static int g(int n)
{
    uint8_t marks[5] = {1, (uint8_t)n, 3, 4, 5};
    return n < 2 ? n : f(n - 1) + marks[n % 5];
}

static int f(int n)
{
    return n < 2 ? 1 : g(n - 1) * 3 + even(n & 3) + f(n - 2);
}

static int h(int n);

static int k(int n)
{
    return n < 1 ? 5 : h(n - 1) + 2;
}

static int h(int n)
{
    return n < 1 ? 7 : k(n - 2) ^ h(n - 1);
}

int main(void)
{
    for (int n = 0; n < 6; n++) {
        tta_out((uint32_t)even(n));
        tta_out((uint32_t)f(n));
        tta_out((uint32_t)h(n));
    }
    return 0;
}
