/* IMA ADPCM: 400 samples of a sound that is made here are coded in four bits each and decoded again; the sum of what differs is told. */
#include "tta.h"

static const int16_t steps[89] = {
    7, 8, 9, 10, 11, 12, 13, 14, 16, 17, 19, 21, 23, 25, 28, 31, 34, 37, 41, 45, 50, 55, 60, 66, 73, 80, 88, 97, 107, 118, 130, 143, 157, 173,
    190, 209, 230, 253, 279, 307, 337, 371, 408, 449, 494, 544, 598, 658, 724, 796, 876, 963, 1060, 1166, 1282, 1411, 1552, 1707, 1878,
    2066, 2272, 2499, 2749, 3024, 3327, 3660, 4026, 4428, 4871, 5358, 5894, 6484, 7132, 7845, 8630, 9493, 10442, 11487, 12635, 13899,
    15289, 16818, 18500, 20350, 22385, 24623, 27086, 29794, 32767};
static const int8_t moves[8] = {-1, -1, -1, -1, 2, 4, 6, 8};
struct coder { int32_t value; int index; };
static int16_t sound[400], again[400];
static uint8_t codes[200];

static int32_t between(int32_t a, int32_t low, int32_t high) { return a < low ? low : a > high ? high : a; }

static void follow(struct coder *c, int code)
{
    int32_t step = steps[c->index], change = step >> 3;
    if (code & 4)
        change += step;
    if (code & 2)
        change += step >> 1;
    if (code & 1)
        change += step >> 2;
    c->value = between(code & 8 ? c->value - change : c->value + change, -32768, 32767);
    c->index = between(c->index + moves[code & 7], 0, 88);
}

static int encode(struct coder *c, int16_t sample)
{
    int32_t step = steps[c->index], rest = sample - c->value;
    int code = 0;
    if (rest < 0) {
        code = 8;
        rest = -rest;
    }
    for (int bit = 4; bit; bit >>= 1, step >>= 1)
        if (rest >= step) {
            code |= bit;
            rest -= step;
        }
    follow(c, code);
    return code;
}

int main(void)
{
    struct coder in = {0, 0}, out = {0, 0};
    int32_t x = 0, y = 12000;
    uint32_t sum = 0, differ = 0;
    for (int k = 0; k < 400; k++) {
        x += y / 16;
        y -= x / 16;
        sound[k] = (int16_t)(x + ((k * 7919) & 255));
    }
    for (int k = 0; k < 400; k++)
        codes[k / 2] |= (uint8_t)(encode(&in, sound[k]) << (k & 1 ? 4 : 0));
    for (int k = 0; k < 400; k++) {
        follow(&out, codes[k / 2] >> (k & 1 ? 4 : 0) & 15);
        again[k] = (int16_t)out.value;
    }
    for (int k = 0; k < 400; k++) {
        sum = sum * 31 + codes[k / 2];
        differ += (uint32_t)(sound[k] > again[k] ? sound[k] - again[k] : again[k] - sound[k]);
    }
    tta_out(sum);
    tta_out(differ);
    return 0;
}
