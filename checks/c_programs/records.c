// Whole programs of texts, records and tables, each with several features at once. Each part is a program of its own.
//// the words of a text, counted and sorted: memory that is asked for, a table of lists, places that are sorted by what stands there
#include <ctype.h>
#include <stdlib.h>
#include <string.h>
static const char text[] = "The cat sat on the mat; the Dog sat on THE log. A cat, a dog -- and on and on it goes: mat, log, cat!";
struct entry { struct entry *next; char *word; unsigned count, first; };
static struct entry *lists[8];
static unsigned entries;
static unsigned hash(const char *p)
{
    unsigned h = 5381;
    while (*p)
        h = h * 33 ^ (unsigned char)*p++;
    return h;
}
static void count_word(const char *word, unsigned at)
{
    struct entry **p = &lists[hash(word) % 8];
    for (; *p; p = &(*p)->next)
        if (!strcmp((*p)->word, word)) {
            (*p)->count++;
            return;
        }
    *p = calloc(1, sizeof **p);
    **p = (struct entry){NULL, strdup(word), 1, at};
    entries++;
}
static int by_count(const void *a, const void *b)
{
    const struct entry *p = *(struct entry *const *)a, *q = *(struct entry *const *)b;
    return p->count != q->count ? (p->count < q->count) - (p->count > q->count) : strcmp(p->word, q->word);
}
static char *digits(unsigned n, char *end)
{
    *--end = 0;
    do
        *--end = (char)('0' + n % 10);
    while (n /= 10);
    return end;
}
int main(void)
{
    char word[16], line[40], number[12];
    unsigned n = 0;
    for (const char *p = text; ; p++) {
        if (isalpha((unsigned char)*p)) {
            word[n++] = (char)tolower((unsigned char)*p);
            continue;
        }
        word[n] = 0;
        if (n)
            count_word(word, (unsigned)(p - text) - n);
        n = 0;
        if (!*p)
            break;
    }
    struct entry **sorted = malloc(entries * sizeof *sorted);
    unsigned k = 0;
    for (int l = 0; l < 8; l++)
        for (struct entry *e = lists[l]; e; e = e->next)
            sorted[k++] = e;
    qsort(sorted, entries, sizeof *sorted, by_count);
    OUT(entries);
    for (k = 0; k < entries; k++) {
        strcpy(line, sorted[k]->word);
        strcat(line, ": ");
        strcat(line, digits(sorted[k]->count * 1000 + sorted[k]->first, number + 12));
        for (const char *p = line; *p; p++)
            OUT((unsigned char)*p);
        OUT(10);
    }
    return 0;
}
//// the shortest ways between towns: static data that point to each other, places that are sorted, marks in one word
#include <stdlib.h>
struct town;
struct road { const struct town *to; uint16_t miles; };
struct town { const char *name; const struct road *roads; uint8_t count, number; };
extern const struct town towns[7];
static const struct road of_a[] = {{&towns[1], 7}, {&towns[2], 9}, {&towns[5], 14}}, of_b[] = {{&towns[0], 7}, {&towns[2], 10}, {&towns[3], 15}};
static const struct road of_c[] = {{towns, 9}, {towns + 1, 10}, {towns + 3, 11}, {towns + 5, 2}};
static const struct road of_d[] = {{towns + 1, 15}, {towns + 2, 11}, {towns + 4, 6}};
static const struct road of_e[] = {{towns + 3, 6}, {towns + 5, 9}}, of_f[] = {{towns, 14}, {towns + 2, 2}, {towns + 4, 9}};
#define TOWN(name, roads, number) {name, roads, sizeof roads / sizeof *roads, number}
const struct town towns[7] = {
    TOWN("Aber", of_a, 0), TOWN("Bala", of_b, 1), TOWN("Cwm", of_c, 2), TOWN("Dinas", of_d, 3), TOWN("Eglwys", of_e, 4), TOWN("Felin", of_f, 5),
    {"Gwynt", NULL, 0, 6},
};
static uint32_t far[7];
static const struct town *from[7];
static int nearer(const void *a, const void *b)
{
    const struct town *p = *(const struct town *const *)a, *q = *(const struct town *const *)b;
    return far[p->number] != far[q->number] ? far[p->number] < far[q->number] ? -1 : 1 : p->number - q->number;
}
static void measure(const struct town *start)
{
    const struct town *left[7];
    uint32_t done = 0;
    for (int k = 0; k < 7; k++) {
        far[k] = UINT32_MAX;
        from[k] = NULL;
        left[k] = &towns[k];
    }
    far[start->number] = 0;
    for (int k = 0; k < 7; k++) {
        qsort(left + k, 7 - k, sizeof *left, nearer);
        const struct town *here = left[k];
        done |= 1u << here->number;
        if (far[here->number] == UINT32_MAX)
            break;
        for (const struct road *r = here->roads; r < here->roads + here->count; r++) {
            uint32_t miles = far[here->number] + r->miles;
            if (!(done >> r->to->number & 1) && miles < far[r->to->number]) {
                far[r->to->number] = miles;
                from[r->to->number] = here;
            }
        }
    }
    OUT(done);
}
int main(void)
{
    static int turns;
    for (const struct town *t = towns; t < towns + 7; t++) {
        measure(t);
        turns++;
        for (int k = 0; k < 7; k++) {
            OUT(far[k]);
            for (const struct town *p = &towns[k]; p; p = from[p->number])
                OUT((unsigned char)*p->name);
        }
    }
    OUT(turns);
    return 0;
}
//// heads of messages in bit fields, with and without sign, put together and taken apart, with a sum that is checked
#include <string.h>
typedef struct {
    unsigned version : 4, urgent : 1, kind : 3;
    int priority : 5;
    unsigned length : 11;
    signed change : 8;
    unsigned : 0;
    uint16_t source : 10, more : 6;
    uint16_t last : 1, : 3, rest : 12;
} head;
typedef union { struct { uint32_t low : 12, middle : 9, high : 11; } part; uint32_t whole; } word;
enum kind { DATA, ASK, ANSWER, STOP };
static const struct { enum kind kind : 2; unsigned cost : 6; signed char step; } kinds[] = {
    {DATA, 3, -1}, {ASK, 40, 2}, {ANSWER, 63, -128}, {STOP, 0, 127},
};
static uint16_t sum_of(const void *p, size_t n)
{
    const uint8_t *bytes = p;
    uint32_t sum = 0;
    for (size_t k = 0; k < n; k++)
        sum += k & 1 ? bytes[k] : (uint32_t)bytes[k] << 8;
    while (sum >> 16)
        sum = (sum & 0xffff) + (sum >> 16);
    return (uint16_t)~sum;
}
static head head_of(uint32_t a, uint32_t b)
{
    head h;
    memset(&h, 0, sizeof h);
    h.version = 5;
    h.urgent = a > b;
    h.kind = a >> 5;
    h.priority = (int)(a >> 9);
    h.length = b;
    h.change = (int)b >> 20;
    h.source = (uint16_t)(a ^ b);
    h.more = h.source / 3;
    h.last = h.priority < h.change;
    h.rest = (uint16_t)(a >> 17);
    return h;
}
int main(void)
{
    static head kept[6];
    static uint8_t bytes[sizeof kept + 3];
    OUT(sizeof(head));
    for (int k = 0; k < 6; k++) {
        uint32_t a = tta_in(), b = tta_in() >> k;
        kept[k] = head_of(a, b);
        kept[k].length += 3;
        kept[k].priority -= k;
        kept[k].change *= 2;
        kept[k].kind++;
    }
    memcpy(bytes + 3, kept, sizeof kept);
    OUT(sum_of(bytes, sizeof bytes));
    for (int k = 5; k >= 0; k--) {
        head h;
        memcpy(&h, bytes + 3 + k * sizeof h, sizeof h);
        OUT(h.version); OUT(h.urgent); OUT(h.kind); OUT(h.priority); OUT(h.length); OUT(h.change); OUT(h.source); OUT(h.more); OUT(h.last);
        OUT(h.rest);
        OUT(kinds[h.kind & 3].cost + kinds[h.kind & 3].step); OUT(kinds[k & 3].kind);
        word w = {.whole = tta_in()};
        w.part.middle += w.part.low;
        w.part.high = w.part.high > 1000 ? 7 : w.part.high * 2;
        OUT(w.whole);
    }
    return 0;
}
//// a book of names in several orders, and search in it: qsort and bsearch with functions of a table, small structures that are returned
#include <stdlib.h>
#include <string.h>
typedef struct { char name[12]; uint64_t number; int16_t year; double weight; } person;
typedef struct { int64_t up; uint32_t down; } fraction;
typedef struct { const person *first, *last; } range;
typedef int order(const void *, const void *);
static person book[24];
static int by_name(const void *a, const void *b) { return strncmp(((const person *)a)->name, ((const person *)b)->name, 12); }
static int by_number(const void *a, const void *b)
{
    uint64_t p = ((const person *)a)->number, q = ((const person *)b)->number;
    return (p > q) - (p < q);
}
static int by_year(const void *a, const void *b)
{
    int d = ((const person *)a)->year - ((const person *)b)->year;
    return d ? d : by_number(a, b);
}
static int by_weight(const void *a, const void *b)
{
    double p = ((const person *)a)->weight, q = ((const person *)b)->weight;
    return p < q ? -1 : p > q ? 1 : by_number(a, b);
}
static int only_year(const void *a, const void *b) { return *(const int16_t *)a - ((const person *)b)->year; }
static person made(uint32_t w, int k)
{
    person p = {.number = (uint64_t)w * 99991 + (unsigned)k, .year = (int16_t)(1950 + w % 7 * 5), .weight = (int32_t)w / 3e7};
    for (int n = 0; n < 3 + k % 5; n++)
        p.name[n] = (char)('a' + (w >> 3 * n) % 26);
    p.name[10] = (char)('A' + k);
    return p;
}
static range of_year(int16_t year)
{
    const person *p = bsearch(&year, book, 24, sizeof *book, only_year), *q = p;
    if (!p)
        return (range){book, book};
    while (p > book && p[-1].year == year)
        p--;
    while (q < book + 24 && q->year == year)
        q++;
    return (range){p, q};
}
static fraction sum(fraction a, fraction b)
{
    fraction f = {a.up * b.down + b.up * a.down, a.down * b.down};
    for (uint32_t d = 2; d <= 7; d++)
        while (f.up % d == 0 && f.down % d == 0)
            f = (fraction){f.up / d, f.down / d};
    return f;
}
int main(void)
{
    static order *const orders[] = {by_name, by_number, by_weight, by_year};
    for (int k = 0; k < 24; k++)
        book[k] = made(tta_in(), k);
    for (int o = 0; o < 4; o++) {
        qsort(book, 24, sizeof *book, orders[o]);
        for (int k = 0; k < 24; k++) {
            OUT(book[k].number); OUT(book[k].number >> 32); OUT(strlen(book[k].name)); OUT((unsigned char)book[k].name[1]); OUT(book[k].year);
        }
        const person *found = bsearch(&book[o * 5 + 1], book, 24, sizeof *book, orders[o]);
        OUT(found ? found - book : -1);
    }
    fraction all = {0, 1};
    for (int16_t year = 1945; year < 1990; year += 5) {
        range r = of_year(year);
        OUT(r.last - r.first);
        all = sum(all, (fraction){r.last - r.first, (uint32_t)(year - 1940) / 5});
    }
    OUT(all.up); OUT(all.up >> 32); OUT(all.down);
    return 0;
}
