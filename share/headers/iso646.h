/* ISO/IEC 9899:2018, 7.9: alternative spellings. */
#ifndef _INCUT_ISO646_H
#define _INCUT_ISO646_H

#define and &&
#define and_eq &=
#define bitand &
#define bitor |
#define compl ~
#define not !
#define not_eq !=
#define or ||
#define or_eq |=
#define xor ^
#define xor_eq ^=

#endif
