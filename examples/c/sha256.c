/* The SHA-256 of the text "abc", and of 200 bytes. */
#include "tta.h"

static const uint32_t round_words[64] = {
    0x428a2f98, 0x71374491, 0xb5c0fbcf, 0xe9b5dba5, 0x3956c25b, 0x59f111f1, 0x923f82a4, 0xab1c5ed5, 0xd807aa98, 0x12835b01, 0x243185be,
    0x550c7dc3, 0x72be5d74, 0x80deb1fe, 0x9bdc06a7, 0xc19bf174, 0xe49b69c1, 0xefbe4786, 0x0fc19dc6, 0x240ca1cc, 0x2de92c6f, 0x4a7484aa,
    0x5cb0a9dc, 0x76f988da, 0x983e5152, 0xa831c66d, 0xb00327c8, 0xbf597fc7, 0xc6e00bf3, 0xd5a79147, 0x06ca6351, 0x14292967, 0x27b70a85,
    0x2e1b2138, 0x4d2c6dfc, 0x53380d13, 0x650a7354, 0x766a0abb, 0x81c2c92e, 0x92722c85, 0xa2bfe8a1, 0xa81a664b, 0xc24b8b70, 0xc76c51a3,
    0xd192e819, 0xd6990624, 0xf40e3585, 0x106aa070, 0x19a4c116, 0x1e376c08, 0x2748774c, 0x34b0bcb5, 0x391c0cb3, 0x4ed8aa4a, 0x5b9cca4f,
    0x682e6ff3, 0x748f82ee, 0x78a5636f, 0x84c87814, 0x8cc70208, 0x90befffa, 0xa4506ceb, 0xbef9a3f7, 0xc67178f2};
static uint32_t state[8], block[64];
static uint8_t pending[64];
static uint32_t length;

static uint32_t turn(uint32_t a, int n) { return a >> n | a << (32 - n); }

static void one_block(void)
{
    uint32_t s[8];
    for (int k = 0; k < 16; k++)
        block[k] = (uint32_t)pending[4 * k] << 24 | pending[4 * k + 1] << 16 | pending[4 * k + 2] << 8 | pending[4 * k + 3];
    for (int k = 16; k < 64; k++) {
        uint32_t a = block[k - 15], b = block[k - 2];
        block[k] = block[k - 16] + (turn(a, 7) ^ turn(a, 18) ^ a >> 3) + block[k - 7] + (turn(b, 17) ^ turn(b, 19) ^ b >> 10);
    }
    for (int k = 0; k < 8; k++)
        s[k] = state[k];
    for (int k = 0; k < 64; k++) {
        uint32_t t = s[7] + (turn(s[4], 6) ^ turn(s[4], 11) ^ turn(s[4], 25)) + ((s[4] & s[5]) ^ (~s[4] & s[6])) + round_words[k] + block[k];
        uint32_t u = (turn(s[0], 2) ^ turn(s[0], 13) ^ turn(s[0], 22)) + ((s[0] & s[1]) ^ (s[0] & s[2]) ^ (s[1] & s[2]));
        for (int n = 7; n > 0; n--)
            s[n] = s[n - 1];
        s[4] += t;
        s[0] = t + u;
    }
    for (int k = 0; k < 8; k++)
        state[k] += s[k];
}

static void put(uint8_t byte)
{
    pending[length++ & 63] = byte;
    if (!(length & 63))
        one_block();
}

static void digest(const uint8_t *bytes, uint32_t count)
{
    static const uint32_t first[8] = {0x6a09e667, 0xbb67ae85, 0x3c6ef372, 0xa54ff53a, 0x510e527f, 0x9b05688c, 0x1f83d9ab, 0x5be0cd19};
    for (int k = 0; k < 8; k++)
        state[k] = first[k];
    length = 0;
    for (uint32_t k = 0; k < count; k++)
        put(bytes[k]);
    put(0x80);
    while ((length & 63) != 60)
        put(0);
    for (int k = 24; k >= 0; k -= 8)
        put((uint8_t)(count * 8 >> k));
    for (int k = 0; k < 8; k++)
        tta_out(state[k]);
}

int main(void)
{
    static uint8_t text[200];
    digest((const uint8_t *)"abc", 3);
    for (int k = 0; k < 200; k++)
        text[k] = (uint8_t)(k * k + 3 * k);
    digest(text, 200);
    return 0;
}
