/* zlib: deflates a text at three levels and with two strategies, inflates what came out, and tells sizes and sums of both. */
#include "tta.h"
#include <string.h>
#include "zlib.h"

enum { SIZE = 3000, HEAP = 7000 };
static unsigned char text[SIZE], packed[SIZE + 200], again[SIZE];
/* Memory that is given by zlib's own functions, and taken back whole. */
static unsigned long heap[HEAP];
static unsigned used;

static void *take(void *all, unsigned items, unsigned size)
{
    unsigned words = (items * size + sizeof heap[0] - 1) / sizeof heap[0];
    void *found = &heap[used];
    (void)all;
    if (used + words > HEAP)
        return 0;
    used += words;
    return found;
}

static void give(void *all, void *at)
{
    (void)all;
    (void)at;
}

static void tell(const unsigned char *bytes, unsigned count)
{
    tta_out(count);
    tta_out((uint32_t)adler32(1, bytes, count));
    tta_out((uint32_t)crc32(0, bytes, count));
}

static void round_trip(int level, int strategy, int window)
{
    z_stream s;
    used = 0;
    memset(&s, 0, sizeof s);
    s.zalloc = take;
    s.zfree = give;
    tta_out((uint32_t)deflateInit2(&s, level, Z_DEFLATED, window, 2, strategy));
    s.next_in = text;
    s.avail_in = SIZE;
    s.next_out = packed;
    s.avail_out = sizeof packed;
    tta_out((uint32_t)deflate(&s, Z_FINISH));
    unsigned count = (unsigned)(sizeof packed - s.avail_out);
    tell(packed, count);
    tta_out((uint32_t)deflateEnd(&s));

    used = 0;
    memset(&s, 0, sizeof s);
    s.zalloc = take;
    s.zfree = give;
    tta_out((uint32_t)inflateInit2(&s, window));
    s.next_out = again;
    s.avail_out = sizeof again;
    int status = Z_OK;
    /* In parts of a few bytes, so that the state of the inflater is kept in between. */
    for (unsigned done = 0; status == Z_OK && done < count; done += 97) {
        s.next_in = packed + done;
        s.avail_in = count - done < 97 ? count - done : 97;
        status = inflate(&s, Z_NO_FLUSH);
    }
    tta_out((uint32_t)status);
    tell(again, (unsigned)(sizeof again - s.avail_out));
    tta_out((uint32_t)memcmp(text, again, SIZE));
    tta_out((uint32_t)inflateEnd(&s));
}

int main(void)
{
    static const char words[] = "a machine moves words from register to register, and every move of a word has a bus of its own; ";
    uint32_t seed = 5;
    for (unsigned k = 0; k < SIZE; k++) {
        seed = seed * 1103515245 + 12345;
        text[k] = seed >> 28 ? (unsigned char)words[(k + (seed >> 30)) % (sizeof words - 1)] : (unsigned char)(seed >> 20);
    }
    tell(text, SIZE);
    round_trip(1, Z_DEFAULT_STRATEGY, 10);
    round_trip(6, Z_DEFAULT_STRATEGY, 12);
    round_trip(9, Z_DEFAULT_STRATEGY, -11);
    round_trip(6, Z_HUFFMAN_ONLY, 9);
    round_trip(0, Z_DEFAULT_STRATEGY, 9);
    return 0;
}
