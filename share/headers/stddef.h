/* ISO/IEC 9899:2018, 7.19: common definitions. The types are those of the x86-64 System V ABI.

   A header of the C library that wants some of these names alone defines __need_NAME for each before it includes this one. */
#if !defined(__need_NULL) && !defined(__need_ptrdiff_t) && !defined(__need_size_t) && !defined(__need_wchar_t)
#define __need_NULL
#define __need_ptrdiff_t
#define __need_size_t
#define __need_wchar_t

#ifndef _INCUT_STDDEF_H
#define _INCUT_STDDEF_H

/* Aligned to 16 bytes, as long double is. */
typedef struct {
    long long __max_integer;
    long double __max_real;
} max_align_t;

#define offsetof(type, member) __builtin_offsetof(type, member)

#endif
#endif

#ifdef __need_NULL
#undef __need_NULL
#undef NULL
#define NULL ((void *)0)
#endif

#ifdef __need_ptrdiff_t
#undef __need_ptrdiff_t
#ifndef _INCUT_PTRDIFF_T
#define _INCUT_PTRDIFF_T
typedef long ptrdiff_t;
#endif
#endif

#ifdef __need_size_t
#undef __need_size_t
#ifndef _INCUT_SIZE_T
#define _INCUT_SIZE_T
typedef unsigned long size_t;
#endif
#endif

#ifdef __need_wchar_t
#undef __need_wchar_t
#ifndef _INCUT_WCHAR_T
#define _INCUT_WCHAR_T
typedef int wchar_t;
#endif
#endif
