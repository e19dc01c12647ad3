/* Operations of floating point over words of integers, for one format: float.c includes this once for each.

   W: bits of a number. MANT: bits of its fraction. T, S: integers of W bits. N(x): the name of x in this format. LEAD(x): zeros above the highest bit.
   HIGH(a, b, low): the high half of a product, the low half being put to `low`. A number is sign, exponent (BIAS + that of its first bit; 0 for what is below the least
   normal one, all ones for infinities and what is no number) and fraction. A `sig` on its way has three bits more below: two that decide
   how it is rounded, and one that tells whether anything follows. */
#define TOP ((T)1 << (W - 1))
#define ONE ((T)1 << MANT)
#define MOST ((1 << (W - 1 - MANT)) - 1)
#define BIAS (MOST >> 1)
#define INF ((T)MOST << MANT)
#define NONE (INF | ONE >> 1)
#define IS_NONE(a) ((T)((a) << 1) > INF << 1)
#define EXP(a) ((int)((a) >> MANT) & MOST)
#define FRAC(a) ((a) & (ONE - 1))

/* Shifted to the right, the last bit being 1 where any that is lost is. */
static T N(sticky)(T a, int n)
{
    if (n >= W)
        return a != 0;
    return n ? a >> n | ((T)(a << (W - n)) != 0) : a;
}
/* The nearest number: the first bit of sig is at MANT + 3 and has the exponent e, or e is 1 and it is lower. */
static T N(pack)(T sign, int e, T sig)
{
    T low;
    if (e >= MOST)
        return sign | INF;
    if (e < 1) {
        sig = N(sticky)(sig, 1 - e);
        e = 1;
    }
    low = sig & 7;
    sig >>= 3;
    if (low > 4 || (low == 4 && (sig & 1)))
        sig++;
    return sign | (((T)(e - 1) << MANT) + sig);
}
/* The fraction of a number that is not 0 with its first bit at MANT, and its exponent. */
static T N(normal)(T a, int *e)
{
    T m = FRAC(a);
    int k;
    *e = EXP(a);
    if (*e)
        return m | ONE;
    k = LEAD(m) - (W - 1 - MANT);
    *e = 1 - k;
    return m << k;
}
static T N(none)(T a, T b)
{
    return (IS_NONE(a) ? a : b) | ONE >> 1;
}

T N(add)(T a, T b)
{
    T sign, m, n;
    int e, d;
    if (IS_NONE(a) || IS_NONE(b))
        return N(none)(a, b);
    if ((T)(a << 1) < (T)(b << 1)) {
        T t = a;
        a = b;
        b = t;
    }
    sign = a & TOP;
    e = EXP(a);
    if (e == MOST)
        return EXP(b) == MOST && ((a ^ b) & TOP) ? NONE : a;
    d = e - EXP(b);
    m = FRAC(a) << 3;
    n = FRAC(b) << 3;
    if (EXP(b))
        n |= ONE << 3;
    else
        d--;
    if (e) {
        m |= ONE << 3;
    } else {
        e = 1;
        d++;
    }
    n = N(sticky)(n, d);
    if ((a ^ b) & TOP) {
        m -= n;
        if (!m)
            return 0 | (a == b ? sign : 0);
        d = LEAD(m) - (W - 4 - MANT);
        if (d >= e)
            d = e - 1;
        m <<= d;
        e -= d;
    } else {
        m += n;
        if (m >> (MANT + 4)) {
            m = m >> 1 | (m & 1);
            e++;
        }
    }
    return N(pack)(sign, e, m);
}
T N(sub)(T a, T b)
{
    return N(add)(a, IS_NONE(b) ? b : b ^ TOP);
}
T N(mul)(T a, T b)
{
    T sign = (a ^ b) & TOP, low, high;
    int e, f;
    if (IS_NONE(a) || IS_NONE(b))
        return N(none)(a, b);
    if (EXP(a) == MOST || EXP(b) == MOST)
        return (T)(a << 1) && (T)(b << 1) ? sign | INF : NONE;
    if (!(T)(a << 1) || !(T)(b << 1))
        return sign;
    a = N(normal)(a, &e) << (W - 1 - MANT);
    b = N(normal)(b, &f) << (W - 1 - MANT);
    e += f - BIAS + 1;
    high = HIGH(a, b, low);
    if (!(high >> (W - 1))) {
        high = high << 1 | low >> (W - 1);
        low <<= 1;
        e--;
    }
    return N(pack)(sign, e, N(sticky)(high, W - 4 - MANT) | (low != 0));
}
T N(div)(T a, T b)
{
    T sign = (a ^ b) & TOP, q = 0;
    int e, f, k;
    if (IS_NONE(a) || IS_NONE(b))
        return N(none)(a, b);
    if (EXP(a) == MOST)
        return EXP(b) == MOST ? NONE : sign | INF;
    if (EXP(b) == MOST)
        return sign;
    if (!(T)(b << 1))
        return (T)(a << 1) ? sign | INF : NONE;
    if (!(T)(a << 1))
        return sign;
    a = N(normal)(a, &e);
    b = N(normal)(b, &f);
    e += BIAS - f;
    if (a < b) {
        a <<= 1;
        e--;
    }
    for (k = 0; k < MANT + 4; k++) {
        q <<= 1;
        if (a >= b) {
            a -= b;
            q |= 1;
        }
        a <<= 1;
    }
    return N(pack)(sign, e, q | (a != 0));
}
/* The rest of a quotient that is rounded to 0, which is exact. */
T N(rem)(T a, T b)
{
    T sign = a & TOP;
    int e, f;
    if (IS_NONE(a) || IS_NONE(b))
        return N(none)(a, b);
    if (EXP(a) == MOST || !(T)(b << 1))
        return NONE;
    if ((T)(a << 1) < (T)(b << 1) || EXP(b) == MOST)
        return a;
    a = N(normal)(a, &e);
    b = N(normal)(b, &f);
    for (;; e--) {
        if (a >= b)
            a -= b;
        if (!a)
            return sign;
        if (e == f)
            break;
        a <<= 1;
    }
    f = LEAD(a) - (W - 1 - MANT);
    return N(pack)(sign, e - f, a << f << 3);
}
T N(sqrt)(T a)
{
    T m, q = 0, s = 0, r;
    int e;
    if (IS_NONE(a))
        return a | ONE >> 1;
    if (!(T)(a << 1) || a == INF)
        return a;
    if (a & TOP)
        return NONE;
    m = N(normal)(a, &e);
    e -= BIAS;
    m <<= 1 + (e & 1);
    e = e >> 1;
    for (r = ONE << 1; r; r >>= 1) {
        T t = s + r;
        if (t <= m) {
            s = t + r;
            m -= t;
            q += r;
        }
        m <<= 1;
    }
    return N(pack)(0, e + BIAS, q << 2 | (m != 0));
}

uint32_t N(un)(T a, T b)
{
    return IS_NONE(a) || IS_NONE(b);
}
uint32_t N(eq)(T a, T b)
{
    return !(IS_NONE(a) || IS_NONE(b)) && (a == b || !(T)((a | b) << 1));
}
uint32_t N(lt)(T a, T b)
{
    if (IS_NONE(a) || IS_NONE(b))
        return 0;
    if ((a | b) & TOP)
        return (a & b & TOP) ? a > b : (a & TOP) && (T)((a | b) << 1);
    return a < b;
}
uint32_t N(le)(T a, T b)
{
    return N(lt)(a, b) || N(eq)(a, b);
}

/* To whole numbers: towards 0, down, up, to the nearest and even, to the nearest and away from 0. */
static T N(whole)(T a, int how)
{
    int e = EXP(a), n = BIAS + MANT - e;
    T below, half;
    if (n <= 0)
        return IS_NONE(a) ? a | ONE >> 1 : a;
    if (!(T)(a << 1))
        return a;
    if (n > MANT) {
        /* below 1: the place of the first bit is that of 1 or higher */
        T one = (a & TOP) | (T)BIAS << MANT, none = a & TOP;
        switch (how) {
        case 1: return a & TOP ? one : none;
        case 2: return a & TOP ? none : one;
        case 3: return e == BIAS - 1 && FRAC(a) ? one : none;
        case 4: return e == BIAS - 1 ? one : none;
        }
        return none;
    }
    below = ((T)1 << n) - 1;
    half = (T)1 << (n - 1);
    if (!(a & below))
        return a;
    switch (how) {
    case 1: if (a & TOP) a += below; break;
    case 2: if (!(a & TOP)) a += below; break;
    case 3: a += (a & below) == half ? (a >> n & 1 ? half : 0) : half; break;
    case 4: a += half; break;
    }
    return a & ~below;
}
T N(trunc)(T a) { return N(whole)(a, 0); }
T N(floor)(T a) { return N(whole)(a, 1); }
T N(ceil)(T a) { return N(whole)(a, 2); }
T N(rint)(T a) { return N(whole)(a, 3); }
T N(round)(T a) { return N(whole)(a, 4); }

/* From and to integers. */
T N(of_u64)(uint64_t a)
{
    int k;
    if (!a)
        return 0;
    k = LEAD64(a);
    a <<= k;
    return N(pack)(0, BIAS + 63 - k, (T)(a >> (60 - MANT)) | ((a & (((uint64_t)1 << (60 - MANT)) - 1)) != 0));
}
T N(of_s64)(int64_t a)
{
    return a < 0 ? TOP | N(of_u64)(-(uint64_t)a) : N(of_u64)((uint64_t)a);
}
T N(of_u32)(uint32_t a)
{
    int k;
    if (!a)
        return 0;
    k = LEAD32(a);
    a <<= k;
#if MANT < 29
    return N(pack)(0, BIAS + 31 - k, N(sticky)(a, 28 - MANT));
#else
    return ((T)(BIAS + 30 - k) << MANT) + ((T)a << (MANT - 31));
#endif
}
T N(of_s32)(int32_t a)
{
    return a < 0 ? TOP | N(of_u32)(-(uint32_t)a) : N(of_u32)((uint32_t)a);
}
/* The words of a number that no integer of the type is near are of no meaning in C. */
static uint64_t N(bits)(T a)
{
    int e = EXP(a) - BIAS - MANT;
    uint64_t m = FRAC(a) | ONE;
    if (e < -MANT)
        return 0;
    return e >= 0 ? e < 64 ? m << e : 0 : m >> -e;
}
uint64_t N(to_u64)(T a) { return a & TOP ? -N(bits)(a) : N(bits)(a); }
int64_t N(to_s64)(T a) { return (int64_t)N(to_u64)(a); }
static uint32_t N(bits32)(T a)
{
    int e = EXP(a) - BIAS - MANT;
    if (e < -MANT)
        return 0;
    return e >= 0 ? e < 32 ? (uint32_t)(FRAC(a) | ONE) << e : 0 : (uint32_t)((FRAC(a) | ONE) >> -e);
}
uint32_t N(to_u32)(T a) { return a & TOP ? -N(bits32)(a) : N(bits32)(a); }
int32_t N(to_s32)(T a) { return (int32_t)N(to_u32)(a); }

#undef TOP
#undef ONE
#undef MOST
#undef BIAS
#undef INF
#undef NONE
#undef IS_NONE
#undef EXP
#undef FRAC
#undef W
#undef MANT
#undef T
#undef N
#undef LEAD
#undef HIGH
