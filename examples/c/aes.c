/* AES with a key of 128 bits: eight blocks, each added to the one before it (CBC). The table of bytes is worked out first. */
#include "tta.h"

static uint8_t box[256], keys[176], state[16];

static uint8_t twice(uint8_t a) { return (uint8_t)(a << 1 ^ (a >> 7) * 0x1b); }

static void make_box(void)
{
    uint8_t p = 1, q = 1;
    do {
        p = p ^ twice(p);
        q ^= q << 1;
        q ^= q << 2;
        q ^= q << 4;
        if (q & 0x80)
            q ^= 9;
        box[p] = (uint8_t)(q ^ (q << 1 | q >> 7) ^ (q << 2 | q >> 6) ^ (q << 3 | q >> 5) ^ (q << 4 | q >> 4) ^ 0x63);
    } while (p != 1);
    box[0] = 0x63;
}

static void make_keys(const uint8_t *key)
{
    uint8_t round = 1;
    for (int k = 0; k < 16; k++)
        keys[k] = key[k];
    for (int k = 16; k < 176; k += 4) {
        uint8_t t[4];
        for (int n = 0; n < 4; n++)
            t[n] = k % 16 ? keys[k - 4 + n] : box[keys[k - 4 + (n + 1) % 4]];
        if (k % 16 == 0) {
            t[0] ^= round;
            round = twice(round);
        }
        for (int n = 0; n < 4; n++)
            keys[k + n] = keys[k - 16 + n] ^ t[n];
    }
}

static void encrypt(void)
{
    for (int k = 0; k < 16; k++)
        state[k] ^= keys[k];
    for (int round = 1; round <= 10; round++) {
        uint8_t t[16];
        for (int k = 0; k < 16; k++)
            t[k] = box[state[(k + 4 * (k % 4)) % 16]];
        for (int k = 0; k < 16; k += 4) {
            uint8_t all = t[k] ^ t[k + 1] ^ t[k + 2] ^ t[k + 3];
            for (int n = 0; n < 4; n++)
                state[k + n] = t[k + n] ^ keys[16 * round + k + n] ^ (round < 10 ? all ^ twice(t[k + n] ^ t[k + (n + 1) % 4]) : 0);
        }
    }
}

int main(void)
{
    static const uint8_t key[16] = {0x2b, 0x7e, 0x15, 0x16, 0x28, 0xae, 0xd2, 0xa6, 0xab, 0xf7, 0x15, 0x88, 0x09, 0xcf, 0x4f, 0x3c};
    make_box();
    make_keys(key);
    for (int block = 0; block < 8; block++) {
        for (int k = 0; k < 16; k++)
            state[k] ^= (uint8_t)(17 * k + block);
        encrypt();
        for (int k = 0; k < 16; k += 4)
            tta_out((uint32_t)state[k] << 24 | state[k + 1] << 16 | state[k + 2] << 8 | state[k + 3]);
    }
    return 0;
}
