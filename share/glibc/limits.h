/* <limits.h> of the GNU C Library, whose own leaves the limits of C to that of a compiler by #include_next. Here they stand, and what POSIX adds is
   taken from the library, so that every include leads to a file by its name alone. It stands before both on the include path. */
#ifndef _LIBC_LIMITS_H_
#define _LIBC_LIMITS_H_ 1

#define __GLIBC_INTERNAL_STARTING_HEADER_IMPLEMENTATION
#include <bits/libc-header-start.h>

#include "../headers/limits.h"

/* The library has longer characters than C asks for, and takes the other name for a sign that the compiler's header was read. */
#undef MB_LEN_MAX
#define MB_LEN_MAX 16
#define _GCC_LIMITS_H_

#if __GLIBC_USE (IEC_60559_BFP_EXT_C2X)
#define CHAR_WIDTH 8
#define SCHAR_WIDTH 8
#define UCHAR_WIDTH 8
#define SHRT_WIDTH 16
#define USHRT_WIDTH 16
#define INT_WIDTH 32
#define UINT_WIDTH 32
#define LONG_WIDTH 64
#define ULONG_WIDTH 64
#define LLONG_WIDTH 64
#define ULLONG_WIDTH 64
#endif

#if __GLIBC_USE (ISOC2X)
#define BOOL_MAX 1
#define BOOL_WIDTH 1
#endif

#ifdef __USE_POSIX
#include <bits/posix1_lim.h>
#endif

#ifdef __USE_POSIX2
#include <bits/posix2_lim.h>
#endif

#ifdef __USE_XOPEN
#include <bits/xopen_lim.h>
#endif

#endif
