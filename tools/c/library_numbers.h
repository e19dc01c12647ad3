/* More of stdlib.h, as a part of library.c: numbers that are read, order, and numbers by chance. */
static u32 digit_of(char c)
{
    u32 d = (unsigned char)c - '0', letter = ((unsigned char)c | 32) - 'a';
    return d < 10 ? d : letter < 26 ? letter + 10 : 99;
}
/* The number at the begin of a text, without its sign, and the greatest where it has more than 64 bits. */
static u64 number_of(const char *a, char **end, int base, int *negative)
{
    const char *p = a;
    u64 found = 0;
    int over = 0, any = 0;
    while (*p == ' ' || (unsigned char)*p - 9u < 5)
        p++;
    *negative = *p == '-';
    if (*p == '-' || *p == '+')
        p++;
    if ((base == 0 || base == 16) && *p == '0' && (p[1] | 32) == 'x' && digit_of(p[2]) < 16) {
        p += 2;
        base = 16;
    } else if (base == 0) {
        base = *p == '0' ? 8 : 10;
    }
    for (; digit_of(*p) < (u32)base; p++) {
        u64 low = (u64)(u32)found * (u32)base + digit_of(*p), high = (found >> 32) * (u32)base + (low >> 32);
        over |= high >> 32 != 0;
        found = high << 32 | (u32)low;
        any = 1;
    }
    if (end)
        *end = (char *)(any ? p : a);
    return over ? ~0ull : found;
}
/* A number with its sign, within bounds: `most` is the greatest, and the least is one further below 0. */
static s64 bounded(const char *a, char **end, int base, u64 most)
{
    int negative;
    u64 found = number_of(a, end, base, &negative);
    if (found > most + negative)
        found = most + negative;
    return negative ? -found : found;
}
/* A number without a sign; one with `-` before it is taken from the power of 2 above them all. */
static u64 bounded_plain(const char *a, char **end, int base, u64 most)
{
    int negative;
    u64 found = number_of(a, end, base, &negative);
    return found > most ? most : negative ? -found : found;
}
WEAK long strtol(const char *a, char **end, int base)
{
    return (long)bounded(a, end, base, 0x7fffffff);
}
WEAK unsigned long strtoul(const char *a, char **end, int base)
{
    return (unsigned long)bounded_plain(a, end, base, 0xffffffff);
}
WEAK s64 strtoll(const char *a, char **end, int base)
{
    return bounded(a, end, base, ~0ull >> 1);
}
WEAK u64 strtoull(const char *a, char **end, int base)
{
    return bounded_plain(a, end, base, ~0ull);
}
WEAK int atoi(const char *a)
{
    return (int)strtol(a, 0, 10);
}
WEAK long atol(const char *a)
{
    return strtol(a, 0, 10);
}
WEAK s64 atoll(const char *a)
{
    return strtoll(a, 0, 10);
}

typedef int order(const void *, const void *);
static void change_places(char *a, char *b, size_t n)
{
    for (; n; n--) {
        char c = *a;
        *a++ = *b;
        *b++ = c;
    }
}
/* Lets an element of a heap sink to its place, among the first `count`. */
static void sink(char *base, size_t at, size_t count, size_t size, order *compare)
{
    for (size_t below; (below = 2 * at + 1) < count; at = below) {
        if (below + 1 < count && compare(base + below * size, base + (below + 1) * size) < 0)
            below++;
        if (compare(base + at * size, base + below * size) >= 0)
            return;
        change_places(base + at * size, base + below * size, size);
    }
}
/* By a heap, since it neither calls itself nor needs room. */
WEAK void qsort(void *base, size_t count, size_t size, order *compare)
{
    for (size_t k = count / 2; k--;)
        sink(base, k, count, size, compare);
    for (size_t k = count; k-- > 1;) {
        change_places(base, (char *)base + k * size, size);
        sink(base, 0, k, size, compare);
    }
}
WEAK void *bsearch(const void *key, const void *base, size_t count, size_t size, order *compare)
{
    const char *p = base;
    while (count) {
        const char *middle = p + count / 2 * size;
        int found = compare(key, middle);
        if (!found)
            return (void *)middle;
        if (found > 0)
            p = middle + size;
        count = found > 0 ? count - count / 2 - 1 : count / 2;
    }
    return 0;
}
/* As the standard shows it. */
static u32 by_chance = 1;
WEAK int rand(void)
{
    by_chance = by_chance * 1103515245 + 12345;
    return by_chance / 65536 % 32768;
}
WEAK void srand(unsigned seed)
{
    by_chance = seed;
}
