/* Shortest ways in a graph of 48 places, by Dijkstra with a heap; what each place is away from the first, and a way back. */
#include "tta.h"

#define PLACES 48
#define FAR 0xffffffffu
struct way { uint8_t to; uint16_t length; int16_t next; };
static struct way ways[PLACES * 5];
static int16_t first[PLACES];
static uint32_t away[PLACES];
static uint8_t from[PLACES], heap[PLACES * 5], known[PLACES];
static uint32_t keys[PLACES * 5];
static int count, in_heap;

static void join(int a, int b, uint32_t length)
{
    ways[count] = (struct way){(uint8_t)b, (uint16_t)length, first[a]};
    first[a] = (int16_t)count++;
}

static void push(uint32_t key, int place)
{
    int k = in_heap++;
    while (k && keys[(k - 1) / 2] > key) {
        keys[k] = keys[(k - 1) / 2];
        heap[k] = heap[(k - 1) / 2];
        k = (k - 1) / 2;
    }
    keys[k] = key;
    heap[k] = (uint8_t)place;
}

static int pop(void)
{
    int place = heap[0], k = 0, n = --in_heap;
    uint32_t key = keys[n];
    for (;;) {
        int child = 2 * k + 1;
        if (child >= n)
            break;
        if (child + 1 < n && keys[child + 1] < keys[child])
            child++;
        if (keys[child] >= key)
            break;
        keys[k] = keys[child];
        heap[k] = heap[child];
        k = child;
    }
    keys[k] = key;
    heap[k] = heap[n];
    return place;
}

int main(void)
{
    uint32_t seed = 99;
    for (int k = 0; k < PLACES; k++) {
        first[k] = -1;
        away[k] = FAR;
    }
    for (int k = 0; k < PLACES; k++)
        for (int n = 0; n < 5; n++) {
            seed = seed * 1664525 + 1013904223;
            join(k, (int)(seed >> 16) % PLACES, seed >> 8 & 1023);
        }
    away[0] = 0;
    push(0, 0);
    while (in_heap) {
        int place = pop();
        if (known[place])
            continue;
        known[place] = 1;
        for (int w = first[place]; w >= 0; w = ways[w].next) {
            uint32_t length = away[place] + ways[w].length;
            if (length < away[ways[w].to]) {
                away[ways[w].to] = length;
                from[ways[w].to] = (uint8_t)place;
                push(length, ways[w].to);
            }
        }
    }
    for (int k = 0; k < PLACES; k += 5)
        tta_out(away[k]);
    for (int k = PLACES - 1; k; k = from[k])
        tta_out((uint32_t)k);
    return 0;
}
