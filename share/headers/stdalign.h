/* ISO/IEC 9899:2018, 7.15: alignment. */
#ifndef _INCUT_STDALIGN_H
#define _INCUT_STDALIGN_H

#define alignas _Alignas
#define alignof _Alignof
#define __alignas_is_defined 1
#define __alignof_is_defined 1

#endif
