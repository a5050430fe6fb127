/* The little of C's own headers that s2union_cover.h, s2union_outline.h and s2union_join.h need, for the module for
 * WebAssembly, where no C library is: module.c has the functions, and JavaScript's Math those that are imported. */
#ifndef S2UNION_LIBC_H
#define S2UNION_LIBC_H

typedef __INT32_TYPE__ int32_t;
typedef __INT64_TYPE__ int64_t;
typedef __UINT8_TYPE__ uint8_t;
typedef __UINT16_TYPE__ uint16_t;
typedef __UINT32_TYPE__ uint32_t;
typedef __UINT64_TYPE__ uint64_t;
typedef __UINTPTR_TYPE__ uintptr_t;
typedef __SIZE_TYPE__ size_t;

#define bool _Bool
#define true 1
#define false 0
#define NULL ((void*)0)
#define SIZE_MAX __SIZE_MAX__
#define INT64_C(number) number##L
#define UINT32_C(number) number##U
#define INT64_MIN (-__INT64_MAX__ - 1)
#define UINT32_MAX __UINT32_MAX__
#define UINT64_MAX (2UL * __INT64_MAX__ + 1)
#define INFINITY __builtin_inf()
#define isfinite(x) __builtin_isfinite(x)

void* malloc(size_t size);
void* calloc(size_t count, size_t size);
void* realloc(void* at, size_t size);
void free(void* at);
void* memcpy(void* to, const void* from, size_t size);
void* memset(void* to, int byte, size_t size);
void* memmove(void* to, const void* from, size_t size); /* no call of module.c makes it */

/* Instructions of WebAssembly. */
double fabs(double x);
double sqrt(double x);
double ceil(double x);
double floor(double x);
double nearbyint(double x);
double copysign(double x, double sign);

/* Imported: Math's, and the operator %. */
double sin(double x);
double cos(double x);
double tan(double x);
double asin(double x);
double atan(double x);
double atan2(double y, double x);
double fmod(double x, double y);

static inline double fmin(double x, double y) { return x < y || y != y ? x : y; }

static inline double fmax(double x, double y) { return x > y || y != y ? x : y; }

/* Of a number that is normal, and stays so. */
static inline double ldexp(double x, int exponent) {
  uint64_t bits = (uint64_t)(1023 + exponent) << 52;
  double power;
  memcpy(&power, &bits, sizeof power);
  return x * power;
}

/* The higher half of a number's digits. */
static inline double high_half(double x) {
  double far = 134217729.0 * x; /* 2^27 + 1 */
  return far - (far - x);
}

/* What rounding has left out of the product of two numbers, exactly: fma, whose last number is here the rounded product
 * with the other sign. Neither is near the greatest or the least that there is. */
static inline double fma(double x, double y, double minus_product) {
  double x_high = high_half(x), y_high = high_half(y), x_low = x - x_high, y_low = y - y_high;
  return x_high * y_high + minus_product + x_high * y_low + x_low * y_high + x_low * y_low;
}

/* What is left of x without the nearest multiple of y, the even one of two; y is more than 0. */
static inline double remainder(double x, double y) {
  double left = fabs(fmod(x, 2 * y));
  if (left > y / 2) left -= left < y * 1.5 ? y : 2 * y;
  return x < 0 ? -left : left;
}

#include "sort.h"

#endif
