/* The second stage of a coder of pictures: each coefficient is divided by its step, which is coarser for finer waves, and rounded. The input has the
   64 coefficients of each block, row by row, times 8; the output has them from the coarsest wave to the finest, along the diagonals. */
#include "tta.h"
/* 2^19 over 8 times the step of each coefficient, row by row: the steps are those that JPEG proposes for brightness. */
static const uint16_t scale[64] = {
    4096, 5958, 6554, 4096, 2731, 1638, 1285, 1074, 5461, 5461, 4681, 3449, 2521, 1130, 1092, 1192, 4681, 5041, 4096, 2731, 1638, 1150,
    950,  1170, 4681, 3855, 2979, 2260, 1285, 753,  819,  1057, 3641, 2979, 1771, 1170, 964,  601,  636,  851,  2731, 1872, 1192, 1024,
    809,  630,  580,  712,  1337, 1024, 840,  753,  636,  542,  546,  649,  910,  712,  690,  669,  585,  655,  636,  662};
/* Where each coefficient stands, along the diagonals. */
static const uint8_t diagonal[64] = {0,  1,  8,  16, 9,  2,  3,  10, 17, 24, 32, 25, 18, 11, 4,  5,  12, 19, 26, 33, 40, 48,
                                     41, 34, 27, 20, 13, 6,  7,  14, 21, 28, 35, 42, 49, 56, 57, 50, 43, 36, 29, 22, 15, 23,
                                     30, 37, 44, 51, 58, 59, 52, 45, 38, 31, 39, 46, 53, 60, 61, 54, 47, 55, 62, 63};
static int block[64];

int main(void)
{
    for (;;) {
        for (int i = 0; i < 64; i++) {
            int coefficient = (int)tta_in();
            block[i] = (coefficient * scale[i] + (1 << 18)) >> 19;
        }
        for (int i = 0; i < 64; i++)
            tta_out((uint32_t)block[diagonal[i]]);
    }
}
