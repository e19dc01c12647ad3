// Functions of string.h, stdlib.h and ctype.h. Each part is a program of its own.
//// copies and joins of strings
#include <string.h>
static char a[40], b[40]; static void show(const char *p, int n) { for (int k = 0; k < n; k++) OUT((unsigned char)p[k]); }
int main(void) { strncpy(a, "hello", 9); show(a, 12); strncpy(b, "a long text", 4); show(b, 6); strcat(a, " there"); show(a, 14); strncat(a, "abcdef", 3); show(a, 18); strncat(a, "xy", 9); show(a, 20); memmove(a + 2, a, 12); show(a, 20); memmove(a, a + 3, 12); show(a, 20); memset(b, 'q', 5); show(b, 7); strcpy(b, a + 4); OUT(strlen(b)); OUT(strnlen(a, 3)); OUT(strnlen("ab", 9)); }
//// search within strings
#include <string.h>
static const char text[] = "the cat sat on the mat"; static int at(const char *p) { return p ? (int)(p - text) : -1; }
int main(void) { OUT(at(strchr(text, 'c'))); OUT(at(strrchr(text, 't'))); OUT(at(strchr(text, 0))); OUT(at(strrchr(text, 0))); OUT(at(strchr(text, 'z'))); OUT(at(strrchr(text, 'z'))); OUT(at(strstr(text, "sat"))); OUT(at(strstr(text, "the m"))); OUT(at(strstr(text, ""))); OUT(at(strstr(text, "dog"))); OUT(at(strstr(text, "mat!"))); OUT(strspn(text, "eht ")); OUT(strcspn(text, "xsy")); OUT(strspn(text, "")); OUT(strcspn(text, "")); OUT(at(strpbrk(text, "mo"))); OUT(at(strpbrk(text, "z"))); OUT(at(memchr(text, 's', 30 & 15))); OUT(at(memchr(text, 's', 4))); OUT(memcmp(text, "the dog", 5) < 0); OUT(strncmp(text, "the dog", 4)); OUT(strcmp("b", "abc") > 0); }
//// words of a text
#include <string.h>
int main(void) { char t[] = ",,one, two;three ,"; for (char *p = strtok(t, ", ;"); p; p = strtok(0, ", ;")) { OUT(p - t); OUT(strlen(p)); OUT((unsigned char)*p); } char u[] = "k=v;w=x", *r, *s; for (char *p = strtok_r(u, ";", &r); p; p = strtok_r(0, ";", &r)) for (char *q = strtok_r(p, "=", &s); q; q = strtok_r(0, "=", &s)) OUT((unsigned char)*q); OUT(strtok(t + 18, ",") == 0); }
//// numbers that are read
#include <stdlib.h>
static const char *const texts[] = {"42", "  -17x", "+8", "0x1F", "017", "", "-", "abc", "81474", "-81474", "99", "0x", "z1", " \t\n7 8", "00", "-0x10"};
int main(void) { for (int k = 0; k < 16; k++) { char *e; OUT(atoi(texts[k])); OUT(atol(texts[k])); OUT(strtol(texts[k], &e, 0)); OUT(e - texts[k]); OUT(strtol(texts[k], &e, 16)); OUT(e - texts[k]); OUT(strtoul(texts[k], &e, 36)); OUT(e - texts[k]); long long w = strtoll(texts[k], 0, 10); OUT(w); OUT(w >> 32); } OUT(strtol("2147483647", 0, 10)); OUT(strtol("-2147483648", 0, 10)); OUT(strtoul("4294967295", 0, 0)); unsigned long long w = strtoull("18446744073709551615", 0, 10); OUT(w); OUT(w >> 32); w = strtoull("99999999999999999999", 0, 10); OUT(w >> 32); w = strtoll("-9223372036854775809", 0, 10); OUT(w); OUT(w >> 32); w = atoll("-1234567890123"); OUT(w); OUT(w >> 32); }
//// order, and search in it
#include <stdlib.h>
struct item { uint16_t key; uint8_t tag[3]; uint32_t word; }; static struct item items[40]; static uint32_t words[50]; static signed char small[9] = {3, -1, 7, 7, -9, 0, 5, 2, -128};
static int by_key(const void *a, const void *b) { const struct item *p = a, *q = b; return p->key - q->key; } static int by_word(const void *a, const void *b) { uint32_t p = *(const uint32_t *)a, q = *(const uint32_t *)b; return p < q ? -1 : p > q; } static int by_byte(const void *a, const void *b) { return *(const signed char *)b - *(const signed char *)a; }
int main(void) { for (int k = 0; k < 40; k++) { uint32_t w = tta_in(); items[k] = (struct item){(w & 0xff00) | k, {w, w >> 8, k}, w}; } qsort(items, 40, sizeof *items, by_key); for (int k = 0; k < 40; k++) { OUT(items[k].key); OUT(items[k].tag[0] + items[k].tag[2]); OUT(items[k].word); } for (int k = 0; k < 50; k++) words[k] = tta_in(); qsort(words, 50, 4, by_word); for (int k = 0; k < 50; k++) OUT(words[k]); qsort(small, 9, 1, by_byte); for (int k = 0; k < 9; k++) OUT(small[k]); uint32_t w = words[17]; OUT((uint32_t *)bsearch(&w, words, 50, 4, by_word) - words); w++; OUT(bsearch(&w, words, 50, 4, by_word) == 0); qsort(words, 0, 4, by_word); qsort(words, 1, 4, by_word); OUT(bsearch(&w, words, 0, 4, by_word) == 0); }
//// sizes without a sign, quotients, and memory that grows
#include <stdlib.h>
#include <string.h>
int main(void) { OUT(abs(-5)); OUT(labs(-70000L)); OUT(llabs(-5000000000LL) >> 3); div_t d = div(-17, 5); OUT(d.quot); OUT(d.rem); ldiv_t l = ldiv(17, -5); OUT(l.quot); OUT(l.rem); uint32_t n = 4, *p = malloc(n * 4); for (uint32_t k = 0; k < 20; k++) { if (k == n) p = realloc(p, (n *= 2) * 4); p[k] = k * k; } for (uint32_t k = 0; k < 20; k++) OUT(p[k]); char *s = strdup("copied"); OUT(strlen(s)); s = realloc(s, 3); OUT((unsigned char)s[2]); uint8_t *z = calloc(3, 5); OUT(z[14]); OUT(realloc(0, 8) != 0); free(p); free(s); }
//// kinds of letters
#include <ctype.h>
int main(void) { for (int c = -1; c < 256; c++) { if (c > 127) continue; uint32_t m = 0; m = m * 2 + !!isalpha(c); m = m * 2 + !!isdigit(c); m = m * 2 + !!isalnum(c); m = m * 2 + !!isspace(c); m = m * 2 + !!isblank(c); m = m * 2 + !!isupper(c); m = m * 2 + !!islower(c); m = m * 2 + !!ispunct(c); m = m * 2 + !!isprint(c); m = m * 2 + !!isgraph(c); m = m * 2 + !!iscntrl(c); m = m * 2 + !!isxdigit(c); OUT(m); OUT(toupper(c)); OUT(tolower(c)); } }
