/* The names alone: there are no floats. <cmath> wants more than these, and finds none. */
#ifndef MATH_H
#define MATH_H
#ifdef __cplusplus
#include_next <math.h>
#endif
#include <wathread_c.h>
WATHREAD_BEGIN

#define HUGE_VAL __builtin_huge_val()
#define INFINITY __builtin_inff()
#define NAN __builtin_nanf("")

#define WATHREAD_NO __attribute__((unavailable("wathread has no floats: count in whole numbers")))
#define WATHREAD_ONE(name)                        \
    WATHREAD_NO double name(double x);            \
    WATHREAD_NO float name##f(float x);           \
    WATHREAD_NO long double name##l(long double x);
#define WATHREAD_TWO(name)                                          \
    WATHREAD_NO double name(double x, double y);                    \
    WATHREAD_NO float name##f(float x, float y);                    \
    WATHREAD_NO long double name##l(long double x, long double y);
WATHREAD_ONE(fabs) WATHREAD_ONE(sqrt) WATHREAD_ONE(cbrt) WATHREAD_ONE(exp) WATHREAD_ONE(exp2) WATHREAD_ONE(expm1)
WATHREAD_ONE(log) WATHREAD_ONE(log2) WATHREAD_ONE(log10) WATHREAD_ONE(log1p) WATHREAD_ONE(ceil) WATHREAD_ONE(floor)
WATHREAD_ONE(round) WATHREAD_ONE(trunc) WATHREAD_ONE(rint) WATHREAD_ONE(nearbyint) WATHREAD_ONE(sin) WATHREAD_ONE(cos)
WATHREAD_ONE(tan) WATHREAD_ONE(asin) WATHREAD_ONE(acos) WATHREAD_ONE(atan) WATHREAD_ONE(sinh) WATHREAD_ONE(cosh)
WATHREAD_ONE(tanh) WATHREAD_TWO(pow) WATHREAD_TWO(fmod) WATHREAD_TWO(hypot) WATHREAD_TWO(atan2) WATHREAD_TWO(fmin)
WATHREAD_TWO(fmax) WATHREAD_TWO(copysign)
#undef WATHREAD_ONE
#undef WATHREAD_TWO
#undef WATHREAD_NO
WATHREAD_END

#endif
