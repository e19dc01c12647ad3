/* The third stage of a coder of pictures: runs of zeros. The input has the 64 numbers of each block. The output has a word for each that is not 0:
   above its lowest 16 bits stands how many zeros come before it. The first number of a block is told as its difference to that of the block
   before, always; a word of ones ends a block. */
#include "tta.h"
int main(void)
{
    int before = 0;
    for (;;) {
        int first = (int)tta_in();
        uint32_t zeros = 0;
        tta_out((uint32_t)(first - before) & 0xffff);
        before = first;
        for (int i = 1; i < 64; i++) {
            uint32_t number = tta_in();
            if (number == 0)
                zeros++;
            else {
                tta_out(zeros << 16 | (number & 0xffff));
                zeros = 0;
            }
        }
        tta_out(0xffffffff);
    }
}
