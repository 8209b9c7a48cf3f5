/* ISO/IEC 9899:2018, 7.18: boolean type and values. */
#ifndef _INCUT_STDBOOL_H
#define _INCUT_STDBOOL_H

#define bool _Bool
#define true 1
#define false 0
#define __bool_true_false_are_defined 1

#endif
