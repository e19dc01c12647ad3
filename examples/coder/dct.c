/* The first stage of a coder of pictures: the discrete cosine transform of blocks of 8 by 8 pixels. The input has the pixels of a block row by
   row, four in a word, the first in the lowest byte. The output has the 64 coefficients of each block, row by row, times 8. */
#include "tta.h"
/* The cosines, in units of 1/4096: row k, column n is cos((2n + 1) k pi / 16) / 2, and for k = 0 the root of 1/8. */
static const int16_t cosines[8][8] = {
    {1448, 1448, 1448, 1448, 1448, 1448, 1448, 1448},     {2009, 1703, 1138, 400, -400, -1138, -1703, -2009},
    {1892, 784, -784, -1892, -1892, -784, 784, 1892},     {1703, -400, -2009, -1138, 1138, 2009, 400, -1703},
    {1448, -1448, -1448, 1448, 1448, -1448, -1448, 1448}, {1138, -2009, 400, 1703, -1703, -400, 2009, -1138},
    {784, -1892, 1892, -784, -784, 1892, -1892, 784},     {400, -1138, 1703, -2009, 2009, -1703, 1138, -400}};
static int block[8][8], half[8][8];

static void take_block(void)
{
    for (int y = 0; y < 8; y++)
        for (int x = 0; x < 8; x += 4) {
            uint32_t four = tta_in();
            for (int i = 0; i < 4; i++, four >>= 8)
                block[y][x + i] = (int)(four & 255) - 128;
        }
}

int main(void)
{
    for (;;) {
        take_block();
        /* Each row, and then each column of what comes of it. */
        for (int y = 0; y < 8; y++)
            for (int k = 0; k < 8; k++) {
                int sum = 0;
                for (int n = 0; n < 8; n++)
                    sum += block[y][n] * cosines[k][n];
                half[k][y] = (sum + 256) >> 9;
            }
        for (int j = 0; j < 8; j++)
            for (int k = 0; k < 8; k++) {
                int sum = 0;
                for (int n = 0; n < 8; n++)
                    sum += half[k][n] * cosines[j][n];
                tta_out((uint32_t)((sum + 2048) >> 12));
            }
    }
}
