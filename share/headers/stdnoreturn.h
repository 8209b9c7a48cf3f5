/* ISO/IEC 9899:2018, 7.23: _Noreturn. */
#ifndef _INCUT_STDNORETURN_H
#define _INCUT_STDNORETURN_H

#define noreturn _Noreturn

#endif
