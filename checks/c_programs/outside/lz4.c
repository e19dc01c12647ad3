/* lz4: packs a text at several speeds, unpacks it, whole and in parts, refuses what is broken, and tells sizes and sums by its xxHash. */
#include "tta.h"
#include <string.h>
#include "lz4.h"
#define XXH_STATIC_LINKING_ONLY
#include "xxhash.h"

enum { SIZE = 2500 };
static char text[SIZE], packed[LZ4_COMPRESSBOUND(SIZE)], again[SIZE];
static uint32_t state[LZ4_MEMORY_USAGE * 8192 / 8];

static void tell(const void *bytes, unsigned count)
{
    unsigned long long wide = XXH64(bytes, count, 77);
    tta_out(count);
    tta_out(XXH32(bytes, count, 3));
    tta_out((uint32_t)wide);
    tta_out((uint32_t)(wide >> 32));
}

static void round_trip(int speed)
{
    int count = LZ4_compress_fast_extState(state, text, packed, SIZE, sizeof packed, speed);
    tell(packed, (unsigned)count);
    memset(again, 0, sizeof again);
    tta_out((uint32_t)LZ4_decompress_safe(packed, again, count, SIZE));
    tell(again, SIZE);
    tta_out((uint32_t)memcmp(text, again, SIZE));
    memset(again, 1, sizeof again);
    tta_out((uint32_t)LZ4_decompress_safe_partial(packed, again, count, 777, 1000));
    tta_out((uint32_t)memcmp(text, again, 777));
    /* Without its end, and with no room for all, it is refused. */
    tta_out((uint32_t)(LZ4_decompress_safe(packed, again, count - 3, SIZE) < 0));
    tta_out((uint32_t)(LZ4_decompress_safe(packed, again, count, SIZE - 9) < 0));
}

int main(void)
{
    uint32_t seed = 9;
    for (unsigned k = 0; k < SIZE; k++) {
        seed = seed * 1103515245 + 12345;
        text[k] = k % 300 < 40 || seed >> 30 ? (char)("abcabdabcaef"[k % 12] + k / 600) : (char)(seed >> 19);
    }
    tell(text, SIZE);
    round_trip(1);
    round_trip(8);
    return 0;
}
