/* More of string.h, as a part of library.c. What compares or copies few bytes at once stands there. */
WEAK size_t strnlen(const char *a, size_t n)
{
    size_t k = 0;
    while (k < n && a[k])
        k++;
    return k;
}
WEAK int strcoll(const char *a, const char *b)
{
    return strcmp(a, b);
}
WEAK char *strncpy(char *to, const char *from, size_t n)
{
    size_t k = 0;
    for (; k < n && from[k]; k++)
        to[k] = from[k];
    for (; k < n; k++)
        to[k] = 0;
    return to;
}
WEAK char *strcat(char *to, const char *from)
{
    strcpy(to + strlen(to), from);
    return to;
}
WEAK char *strncat(char *to, const char *from, size_t n)
{
    char *p = to + strlen(to);
    for (; n && *from; n--)
        *p++ = *from++;
    *p = 0;
    return to;
}
WEAK char *strrchr(const char *a, int c)
{
    const char *found = 0;
    for (;; a++) {
        if (*a == (char)c)
            found = a;
        if (!*a)
            return (char *)found;
    }
}
WEAK char *strstr(const char *a, const char *part)
{
    size_t n = strlen(part);
    for (;; a++) {
        if (!strncmp(a, part, n))
            return (char *)a;
        if (!*a)
            return 0;
    }
}
/* How many of the first bytes are of a set, or are not. */
static size_t span(const char *a, const char *set, int within)
{
    size_t k = 0;
    while (a[k] && (strchr(set, a[k]) != 0) == within)
        k++;
    return k;
}
WEAK size_t strspn(const char *a, const char *set)
{
    return span(a, set, 1);
}
WEAK size_t strcspn(const char *a, const char *set)
{
    return span(a, set, 0);
}
WEAK char *strpbrk(const char *a, const char *set)
{
    a += span(a, set, 0);
    return *a ? (char *)a : 0;
}
WEAK char *strtok_r(char *a, const char *set, char **rest)
{
    char *end;
    if (!a)
        a = *rest;
    a += span(a, set, 1);
    end = a + span(a, set, 0);
    *rest = *end ? end + 1 : end;
    if (end == a)
        return 0;
    *end = 0;
    return a;
}
WEAK char *strtok(char *a, const char *set)
{
    static char *rest;
    return strtok_r(a, set, &rest);
}
WEAK char *strdup(const char *a)
{
    size_t n = strlen(a) + 1;
    char *to = malloc(n);
    if (to)
        memcpy(to, a, n);
    return to;
}
