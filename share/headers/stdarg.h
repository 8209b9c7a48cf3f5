/* ISO/IEC 9899:2018, 7.16: variable arguments, by the built-in operators that gcc and clang share.

   The GNU C library defines __need___va_list before it includes this header where it wants its own name of the type alone. */
#ifndef _INCUT_GNUC_VA_LIST
#define _INCUT_GNUC_VA_LIST
typedef __builtin_va_list __gnuc_va_list;
#endif

#ifdef __need___va_list
#undef __need___va_list
#elif !defined(_INCUT_STDARG_H)
#define _INCUT_STDARG_H

typedef __builtin_va_list va_list;

#define va_start(list, last) __builtin_va_start(list, last)
#define va_arg(list, type) __builtin_va_arg(list, type)
#define va_copy(to, from) __builtin_va_copy(to, from)
#define va_end(list) __builtin_va_end(list)

#endif
