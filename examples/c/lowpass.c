/* A filter of the second order in floating point over 100 samples of a square wave, and the greatest and the mean of what comes out. */
#include "tta.h"

struct filter { float b0, b1, b2, a1, a2, x1, x2, y1, y2; };

static float follow(struct filter *f, float x)
{
    float y = f->b0 * x + f->b1 * f->x1 + f->b2 * f->x2 - f->a1 * f->y1 - f->a2 * f->y2;
    f->x2 = f->x1;
    f->x1 = x;
    f->y2 = f->y1;
    f->y1 = y;
    return y;
}

int main(void)
{
    struct filter f = {0.0675f, 0.135f, 0.0675f, -1.1430f, 0.4128f, 0, 0, 0, 0};
    float most = 0;
    double sum = 0;
    for (int k = 0; k < 100; k++) {
        float y = follow(&f, k % 20 < 10 ? 1.0f : -1.0f);
        if (y > most)
            most = y;
        sum += y;
        if (k % 10 == 9)
            tta_out((uint32_t)(int32_t)(y * 65536));
    }
    tta_out((uint32_t)(int32_t)(most * 65536));
    tta_out((uint32_t)(int32_t)(sum / 100 * 1e6));
    return 0;
}
