/* CRC-32 of 256 bytes: bit by bit, or by an operation of the machine that is compiled for, where it has one. */
#include "tta.h"

#ifdef TTA_HAS_crc
uint32_t tta_op_crc(uint32_t sum, uint32_t byte) __attribute__((const));
#endif
static uint8_t text[256];

static uint32_t step(uint32_t sum, uint8_t byte)
{
#ifdef TTA_HAS_crc
    return tta_op_crc(sum, byte);
#else
    sum ^= byte;
    for (int k = 0; k < 8; k++)
        sum = sum & 1 ? sum >> 1 ^ 0xedb88320 : sum >> 1;
    return sum;
#endif
}

int main(void)
{
    uint32_t sum = 0xffffffff;
    for (int k = 0; k < 256; k++)
        text[k] = (uint8_t)(k * k);
    for (int k = 0; k < 256; k++)
        sum = step(sum, text[k]);
    tta_out(~sum);
    return 0;
}
