/* Calls that go deeper and deeper, of two functions that call each other: with few words for the stack a run ends in between. */
#include "tta.h"

static uint32_t even(uint32_t n, uint32_t sum);

static uint32_t odd(uint32_t n, uint32_t sum)
{
    uint8_t marks[5] = {1, (uint8_t)n, 3, (uint8_t)sum, 5};
    uint32_t found = n == 0 ? 1 : even(n - 1, sum * 3 + n);
    return found * 2 + marks[n % 5];
}

static uint32_t even(uint32_t n, uint32_t sum)
{
    return n == 0 ? sum : odd(n - 1, sum ^ n) + n;
}

int main(void)
{
    for (uint32_t n = 0; n < 60; n++)
        tta_out(n % 3 ? odd(n, n) : even(n, 7));
    return 0;
}
