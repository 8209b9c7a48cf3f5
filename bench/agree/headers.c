/* The headers of share/headers mean to a compiler what its own mean. It says nothing where that is so:

     gcc -std=c17 -Wall -Wextra -Werror -nostdinc -I share/headers -fsyntax-only bench/agree/headers.c

   and the same with clang. With a compiler's own headers, without -nostdinc and -I, it says nothing either. */
#include <float.h>
#include <iso646.h>
#include <limits.h>
#include <stdalign.h>
#include <stdarg.h>
#include <stdbool.h>
#include <stddef.h>
#include <stdint.h>
#include <stdnoreturn.h>

#define TYPE(a, b) _Static_assert(__builtin_types_compatible_p(a, b), #a)
#define SAME(a, b) TYPE(__typeof__(a), __typeof__(b)); _Static_assert((a) == (b), #a)
#ifdef __clang__ /* It folds comparisons of reals, but takes none as a constant of _Static_assert. */
#pragma clang diagnostic ignored "-Wgnu-folding-constant"
#define REAL(a, b) TYPE(__typeof__(a), __typeof__(b)); extern char equal[(a) == (b) ? 1 : -1]
#else
#define REAL(a, b) SAME(a, b)
#endif
#define RANGE(name, max) SAME(name##_MAX, max); SAME(name##_MIN, -max - 1)

/* limits.h */
SAME(CHAR_BIT, __CHAR_BIT__);
RANGE(SCHAR, __SCHAR_MAX__);
RANGE(SHRT, __SHRT_MAX__);
RANGE(INT, __INT_MAX__);
RANGE(LONG, __LONG_MAX__);
RANGE(LLONG, __LONG_LONG_MAX__);
SAME(UCHAR_MAX, __SCHAR_MAX__ * 2 + 1);
SAME(USHRT_MAX, __SHRT_MAX__ * 2 + 1);
SAME(UINT_MAX, __INT_MAX__ * 2U + 1);
SAME(ULONG_MAX, __LONG_MAX__ * 2UL + 1);
SAME(ULLONG_MAX, __LONG_LONG_MAX__ * 2ULL + 1);
SAME(CHAR_MIN, (char)-1 < 0 ? SCHAR_MIN : 0);
SAME(CHAR_MAX, (char)-1 < 0 ? SCHAR_MAX : UCHAR_MAX);
_Static_assert(MB_LEN_MAX >= 1, "MB_LEN_MAX");

/* stdint.h: of the types and macros of one kind and width */
#define SIGNED(type, name, built_in) TYPE(type, built_in##_TYPE__); RANGE(name, built_in##_MAX__)
#define UNSIGNED(type, name, built_in) TYPE(type, built_in##_TYPE__); SAME(name##_MAX, built_in##_MAX__)
#define EXACT(n) SIGNED(int##n##_t, INT##n, __INT##n); UNSIGNED(uint##n##_t, UINT##n, __UINT##n)
#define LEAST(n)                                               \
    SIGNED(int_least##n##_t, INT_LEAST##n, __INT_LEAST##n);    \
    UNSIGNED(uint_least##n##_t, UINT_LEAST##n, __UINT_LEAST##n); \
    SAME(INT##n##_C(1), +(int_least##n##_t)1);                 \
    SAME(UINT##n##_C(1), +(uint_least##n##_t)1)
#define FAST(n) SIGNED(int_fast##n##_t, INT_FAST##n, __INT_FAST##n); UNSIGNED(uint_fast##n##_t, UINT_FAST##n, __UINT_FAST##n)
EXACT(8);
EXACT(16);
EXACT(32);
EXACT(64);
LEAST(8);
LEAST(16);
LEAST(32);
LEAST(64);
FAST(8);
FAST(64);
#ifndef __clang__ /* Its built-in types differ from those of the C libraries, which it takes on Linux. */
FAST(16);
FAST(32);
#endif
SIGNED(intptr_t, INTPTR, __INTPTR);
UNSIGNED(uintptr_t, UINTPTR, __UINTPTR);
SIGNED(intmax_t, INTMAX, __INTMAX);
UNSIGNED(uintmax_t, UINTMAX, __UINTMAX);
SAME(INTMAX_C(1), (intmax_t)1);
SAME(UINTMAX_C(1), (uintmax_t)1);
RANGE(PTRDIFF, __PTRDIFF_MAX__);
RANGE(SIG_ATOMIC, __SIG_ATOMIC_MAX__);
RANGE(WCHAR, __WCHAR_MAX__);
SAME(SIZE_MAX, __SIZE_MAX__);
SAME(WINT_MAX, __WINT_MAX__);
SAME(WINT_MIN, (__WINT_TYPE__)0);

/* float.h */
#define INTEGERS(name)                                       \
    SAME(name##_HAS_SUBNORM, __##name##_HAS_DENORM__);       \
    SAME(name##_MANT_DIG, __##name##_MANT_DIG__);            \
    SAME(name##_DECIMAL_DIG, __##name##_DECIMAL_DIG__);      \
    SAME(name##_DIG, __##name##_DIG__);                      \
    SAME(name##_MIN_EXP, __##name##_MIN_EXP__);              \
    SAME(name##_MIN_10_EXP, __##name##_MIN_10_EXP__);        \
    SAME(name##_MAX_EXP, __##name##_MAX_EXP__);              \
    SAME(name##_MAX_10_EXP, __##name##_MAX_10_EXP__)
#define REALS(name)                                          \
    REAL(name##_MAX, __##name##_MAX__);                      \
    REAL(name##_EPSILON, __##name##_EPSILON__);              \
    REAL(name##_MIN, __##name##_MIN__);                      \
    REAL(name##_TRUE_MIN, __##name##_DENORM_MIN__)
INTEGERS(FLT);
INTEGERS(DBL);
INTEGERS(LDBL);
REALS(FLT);
REALS(DBL);
REALS(LDBL);
SAME(FLT_EVAL_METHOD, __FLT_EVAL_METHOD__);
SAME(FLT_RADIX, __FLT_RADIX__);
SAME(DECIMAL_DIG, __DECIMAL_DIG__);
int rounding(void) { return FLT_ROUNDS; }

/* stddef.h */
TYPE(size_t, __SIZE_TYPE__);
TYPE(ptrdiff_t, __PTRDIFF_TYPE__);
TYPE(wchar_t, __WCHAR_TYPE__);
TYPE(__typeof__(NULL), void *);
struct pair { char first; long second; };
SAME(offsetof(struct pair, second), (size_t)8);
_Static_assert(_Alignof(max_align_t) == _Alignof(long double) && sizeof(max_align_t) == 32, "max_align_t");

/* stdalign.h, stdbool.h, stdnoreturn.h, iso646.h */
SAME(alignof(long double), (size_t)16);
alignas(16) char aligned;
TYPE(bool, _Bool);
SAME(true, 1);
SAME(false, 0);
noreturn void stop(void);
_Static_assert((3 bitand 5) == 1 and (3 bitor 5) == 7 and (3 xor 5) == 6 and compl 0 == -1, "iso646.h");
_Static_assert(not 0 and (0 or 1) and 1 not_eq 2, "iso646.h");
int assign(int a) { a and_eq 1; a or_eq 2; a xor_eq 3; return a; }

/* What #if is given must have a value there (5.2.4.2, 7.15, 7.18, 7.20.3). */
#if CHAR_MIN < 0 && INT_MIN < 0 && LLONG_MIN < 0 && ULLONG_MAX > LLONG_MAX && INT64_MIN < 0 && UINT64_C(1) && WCHAR_MIN < 0 && LDBL_MIN_EXP < 0
#else
#error "values in #if"
#endif
#if true != 1 || false || __bool_true_false_are_defined != 1 || __alignas_is_defined != 1 || __alignof_is_defined != 1
#error "macros of keywords"
#endif

/* stdarg.h */
int sum(int count, ...)
{
    va_list given, copy;
    TYPE(va_list, __gnuc_va_list);
    int total = 0;
    va_start(given, count);
    va_copy(copy, given);
    while (count--) total += va_arg(given, int) - va_arg(copy, int);
    va_end(copy);
    va_end(given);
    return total;
}
