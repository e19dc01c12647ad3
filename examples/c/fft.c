/* A fast Fourier transform of 64 complex numbers in fixed point (15 bits after the point); its sines are worked out by a turn, again and again. */
#include "tta.h"

#define N 64
static int16_t re[N], im[N], cosines[N / 2], sines[N / 2];

static int32_t product(int32_t a, int32_t b) { return (a * b + (1 << 14)) >> 15; }

static void make_sines(void)
{
    int32_t c = 32767 << 8, s = 0;
    for (int k = 0; k < N / 2; k++) {
        cosines[k] = (int16_t)(c >> 8);
        sines[k] = (int16_t)(s >> 8);
        /* cosine and sine of a 64th of a circle, 32 bits after the point */
        int64_t t = ((int64_t)c * 4274285855u - (int64_t)s * 420980412) >> 32;
        s = (int32_t)(((int64_t)s * 4274285855u + (int64_t)c * 420980412) >> 32);
        c = (int32_t)t;
    }
}

static void transform(void)
{
    for (uint32_t k = 1, j = 0; k < N; k++) {
        uint32_t bit = N >> 1;
        for (; j & bit; bit >>= 1)
            j ^= bit;
        j |= bit;
        if (k < j) {
            int16_t t = re[k];
            re[k] = re[j];
            re[j] = t;
            t = im[k];
            im[k] = im[j];
            im[j] = t;
        }
    }
    for (int half = 1, step = N / 2; half < N; half <<= 1, step >>= 1)
        for (int begin = 0; begin < N; begin += 2 * half)
            for (int k = 0; k < half; k++) {
                int p = begin + k, q = p + half;
                int32_t c = cosines[k * step], s = -sines[k * step];
                int32_t x = product(re[q], c) - product(im[q], s), y = product(re[q], s) + product(im[q], c);
                re[q] = (int16_t)((re[p] - x) >> 1);
                im[q] = (int16_t)((im[p] - y) >> 1);
                re[p] = (int16_t)((re[p] + x) >> 1);
                im[p] = (int16_t)((im[p] + y) >> 1);
            }
}

int main(void)
{
    make_sines();
    for (int k = 0; k < N; k++) {
        re[k] = (int16_t)((cosines[k * 3 % (N / 2)] >> 1) + (k & 8 ? 4000 : -4000));
        im[k] = 0;
    }
    transform();
    for (int k = 0; k < N; k += 4)
        tta_out((uint32_t)(re[k] * re[k] + im[k] * im[k]));
    return 0;
}
