/* The product of two matrices of 12 by 12 words, and the sum of each of its rows. */
#include "tta.h"

#define N 12
static int32_t a[N][N], b[N][N], c[N][N];

int main(void)
{
    uint32_t seed = 1;
    for (int i = 0; i < N; i++)
        for (int j = 0; j < N; j++) {
            seed = seed * 1664525 + 1013904223;
            a[i][j] = (int32_t)seed >> 20;
            b[j][i] = (int32_t)seed >> 18;
        }
    for (int i = 0; i < N; i++)
        for (int j = 0; j < N; j++) {
            int32_t sum = 0;
            for (int k = 0; k < N; k++)
                sum += a[i][k] * b[k][j];
            c[i][j] = sum;
        }
    for (int i = 0; i < N; i++) {
        uint32_t sum = 0;
        for (int j = 0; j < N; j++)
            sum = sum * 31 + (uint32_t)c[i][j];
        tta_out(sum);
    }
    return 0;
}
