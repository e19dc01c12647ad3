/* Of the functions of math.h those that need no series: what LLVM knows by itself, and float.c has. */
#ifndef TTA_MATH_H
#define TTA_MATH_H
#define TTA_MATH(name) \
    static inline double name(double a) { return __builtin_##name(a); } \
    static inline float name##f(float a) { return __builtin_##name##f(a); }
TTA_MATH(fabs)
TTA_MATH(sqrt)
TTA_MATH(floor)
TTA_MATH(ceil)
TTA_MATH(trunc)
TTA_MATH(rint)
TTA_MATH(nearbyint)
TTA_MATH(round)
#undef TTA_MATH
#define TTA_MATH(name) \
    static inline double name(double a, double b) { return __builtin_##name(a, b); } \
    static inline float name##f(float a, float b) { return __builtin_##name##f(a, b); }
TTA_MATH(fmin)
TTA_MATH(fmax)
TTA_MATH(copysign)
#undef TTA_MATH
double tta_lib_fmod(double a, double b);
float tta_lib_fmodf(float a, float b);
#define fmod(a, b) tta_lib_fmod(a, b)
#define fmodf(a, b) tta_lib_fmodf(a, b)
#define INFINITY __builtin_inff()
#define NAN __builtin_nanf("")
#define HUGE_VAL __builtin_inf()
#define isnan(a) __builtin_isnan(a)
#define isinf(a) __builtin_isinf(a)
#define isfinite(a) __builtin_isfinite(a)
#define signbit(a) (__builtin_signbit((double)(a)) != 0)
#define isunordered(a, b) __builtin_isunordered(a, b)
#define M_PI 3.14159265358979323846
#define M_E 2.71828182845904523536
#endif
