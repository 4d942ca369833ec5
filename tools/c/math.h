#ifndef MATH_H
#define MATH_H
#define NAN __builtin_nanf("")
#define INFINITY __builtin_inff()
#define HUGE_VAL __builtin_huge_val()
#define isnan(x) __builtin_isnan(x)
#define isinf(x) __builtin_isinf(x)
#define isfinite(x) __builtin_isfinite(x)
#define signbit(x) __builtin_signbit(x)
double sin(double x), cos(double x), tan(double x), asin(double x), acos(double x), atan(double x), atan2(double y, double x);
double sqrt(double x), cbrt(double x), hypot(double x, double y), pow(double x, double y), exp(double x), log(double x), log2(double x), log10(double x);
double floor(double x), ceil(double x), trunc(double x), round(double x), fabs(double x), fmod(double x, double y), fmin(double x, double y), fmax(double x, double y);
double ldexp(double x, int power), nextafter(double x, double to);
long lround(double x);
#endif
