/* Sorts 200 words by quicksort, which calls itself for the shorter part, and tells the places of some. */
#include "tta.h"

static int32_t words[200];

static void sort(int32_t *low, int32_t *high)
{
    while (low < high) {
        int32_t *i = low, *j = high, middle = low[(high - low) / 2];
        while (i <= j) {
            while (*i < middle)
                i++;
            while (*j > middle)
                j--;
            if (i <= j) {
                int32_t t = *i;
                *i++ = *j;
                *j-- = t;
            }
        }
        if (j - low < high - i) {
            sort(low, j);
            low = i;
        } else {
            sort(i, high);
            high = j;
        }
    }
}

int main(void)
{
    uint32_t seed = 7, sum = 0;
    for (int k = 0; k < 200; k++) {
        seed = seed * 1103515245 + 12345;
        words[k] = (int32_t)(seed >> 4) - (1 << 27);
    }
    sort(words, words + 199);
    for (int k = 0; k < 200; k++)
        sum = sum * 33 + (uint32_t)words[k];
    for (int k = 0; k < 200; k += 40)
        tta_out((uint32_t)words[k]);
    tta_out(sum);
    return 0;
}
