/* Inflates three streams of deflate (codes of their own, fixed codes, and none), and tells the length and the Adler-32 of each text. */
#include "tta.h"

static const uint8_t own_codes[177] = {
    221, 143, 177, 10, 131, 48, 24, 132, 95, 229, 199, 33, 56, 164, 14, 226, 32, 14, 162, 16, 28, 196, 65, 28, 196, 33, 8, 70,
    67, 163, 96, 148, 248, 215, 33, 248, 240, 45, 180, 165, 20, 58, 117, 41, 116, 186, 187, 225, 142, 239, 82, 64, 211, 233, 109,
    93, 12, 158, 208, 140, 231, 179, 52, 114, 128, 185, 235, 213, 168, 37, 168, 110, 131, 229, 166, 163, 222, 208, 92, 122, 28,
    23, 77, 1, 149, 132, 121, 217, 165, 7, 233, 207, 202, 224, 198, 34, 64, 209, 42, 200, 44, 47, 242, 122, 13, 117, 197, 88,
    165, 195, 181, 206, 11, 110, 51, 80, 173, 192, 64, 196, 46, 144, 136, 211, 169, 46, 27, 237, 15, 204, 247, 194, 114, 207,
    233, 97, 73, 162, 98, 7, 209, 137, 85, 66, 236, 65, 243, 189, 12, 61, 159, 13, 190, 110, 202, 122, 162, 60, 34, 223, 237, 63,
    249, 94, 164, 15, 119, 63, 245, 22, 62, 61, 244, 224, 63, 22, 174};
static const uint8_t fixed_codes[65] = {
    115, 84, 40, 41, 74, 204, 43, 46, 200, 47, 42, 209, 45, 41, 202, 76, 79, 79, 45, 74, 77, 81, 200, 77, 76, 206, 200, 204, 75,
    85, 200, 72, 44, 86, 200, 7, 210, 153, 121, 197, 37, 69, 165, 201, 37, 153, 249, 121, 58, 10, 37, 25, 169, 10, 185, 249, 101,
    169, 122, 10, 142, 196, 105, 6, 0};
static const uint8_t no_codes[13] = {
    1, 8, 0, 247, 255, 97, 115, 32, 105, 116, 32, 105, 115};
static uint8_t text[1024];
static uint32_t made;
static const uint8_t *next;
static uint32_t bits, have;

static uint32_t take(uint32_t n)
{
    while (have < n) {
        bits |= (uint32_t)*next++ << have;
        have += 8;
    }
    uint32_t found = bits & ((1u << n) - 1);
    bits >>= n;
    have -= n;
    return found;
}

/* A code: how many words there are of each length, and the symbols in order. */
struct code { uint16_t count[16], symbol[288]; };
static struct code literals, distances;

static void make(struct code *c, const uint8_t *lengths, int n)
{
    uint16_t at[16];
    for (int k = 0; k < 16; k++)
        c->count[k] = 0;
    for (int k = 0; k < n; k++)
        c->count[lengths[k]]++;
    c->count[0] = 0;
    at[1] = 0;
    for (int k = 1; k < 15; k++)
        at[k + 1] = at[k] + c->count[k];
    for (int k = 0; k < n; k++)
        if (lengths[k])
            c->symbol[at[lengths[k]]++] = (uint16_t)k;
}

static int decode(const struct code *c)
{
    int code = 0, first = 0, at = 0;
    for (int length = 1; length < 16; length++) {
        int count = c->count[length];
        code |= (int)take(1);
        if (code - first < count)
            return c->symbol[at + code - first];
        at += count;
        first = (first + count) << 1;
        code <<= 1;
    }
    tta_halt();
}

static void codes(void)
{
    static const uint16_t length_of[29] = {3, 4, 5, 6, 7, 8, 9, 10, 11, 13, 15, 17, 19, 23, 27, 31, 35, 43, 51, 59, 67, 83, 99, 115, 131, 163, 195, 227, 258};
    static const uint8_t length_more[29] = {0, 0, 0, 0, 0, 0, 0, 0, 1, 1, 1, 1, 2, 2, 2, 2, 3, 3, 3, 3, 4, 4, 4, 4, 5, 5, 5, 5, 0};
    static const uint16_t distance_of[30] = {1, 2, 3, 4, 5, 7, 9, 13, 17, 25, 33, 49, 65, 97, 129, 193, 257, 385, 513, 769, 1025, 1537, 2049, 3073, 4097, 6145, 8193, 12289, 16385, 24577};
    for (;;) {
        int symbol = decode(&literals);
        if (symbol < 256) {
            text[made++] = (uint8_t)symbol;
        } else if (symbol == 256) {
            return;
        } else {
            uint32_t length = length_of[symbol - 257] + take(length_more[symbol - 257]);
            int d = decode(&distances);
            uint32_t back = distance_of[d] + take(d < 2 ? 0 : (uint32_t)d / 2 - 1);
            for (; length; length--, made++)
                text[made] = text[made - back];
        }
    }
}

static void own(void)
{
    static const uint8_t order[19] = {16, 17, 18, 0, 8, 7, 9, 6, 10, 5, 11, 4, 12, 3, 13, 2, 14, 1, 15};
    static uint8_t lengths[320];
    int literal = (int)take(5) + 257, distance = (int)take(5) + 1, count = (int)take(4) + 4, n = 0;
    for (int k = 0; k < 19; k++)
        lengths[order[k]] = k < count ? (uint8_t)take(3) : 0;
    make(&literals, lengths, 19);
    while (n < literal + distance) {
        int symbol = decode(&literals);
        if (symbol < 16) {
            lengths[n++] = (uint8_t)symbol;
        } else {
            uint8_t again = symbol == 16 ? lengths[n - 1] : 0;
            for (uint32_t k = symbol == 16 ? 3 + take(2) : symbol == 17 ? 3 + take(3) : 11 + take(7); k; k--)
                lengths[n++] = again;
        }
    }
    make(&literals, lengths, literal);
    make(&distances, lengths + literal, distance);
}

static void inflate(const uint8_t *from)
{
    static uint8_t lengths[288];
    uint32_t last, a = 1, b = 0;
    next = from;
    bits = have = made = 0;
    do {
        last = take(1);
        switch (take(2)) {
        case 0: {
            bits = have = 0;
            uint32_t length = take(16);
            for (take(16); length; length--)
                text[made++] = (uint8_t)take(8);
            break;
        }
        case 1:
            for (int k = 0; k < 288; k++)
                lengths[k] = k < 144 ? 8 : k < 256 ? 9 : k < 280 ? 7 : 8;
            make(&literals, lengths, 288);
            for (int k = 0; k < 30; k++)
                lengths[k] = 5;
            make(&distances, lengths, 30);
            codes();
            break;
        case 2:
            own();
            codes();
            break;
        default:
            tta_halt();
        }
    } while (!last);
    for (uint32_t k = 0; k < made; k++) {
        a = (a + text[k]) % 65521;
        b = (b + a) % 65521;
    }
    tta_out(made);
    tta_out(b << 16 | a);
}

int main(void)
{
    inflate(own_codes);
    inflate(fixed_codes);
    inflate(no_codes);
    return 0;
}
