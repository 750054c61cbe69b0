// Each file reads itself once more, until sixteen guards are defined.
#ifndef L1
#define L1
#include "sixteen_files_in_one_another.c"
#else
#ifndef L2
#define L2
#include "sixteen_files_in_one_another.c"
#else
#ifndef L3
#define L3
#include "sixteen_files_in_one_another.c"
#else
#ifndef L4
#define L4
#include "sixteen_files_in_one_another.c"
#else
#ifndef L5
#define L5
#include "sixteen_files_in_one_another.c"
#else
#ifndef L6
#define L6
#include "sixteen_files_in_one_another.c"
#else
#ifndef L7
#define L7
#include "sixteen_files_in_one_another.c"
#else
#ifndef L8
#define L8
#include "sixteen_files_in_one_another.c"
#else
#ifndef L9
#define L9
#include "sixteen_files_in_one_another.c"
#else
#ifndef L10
#define L10
#include "sixteen_files_in_one_another.c"
#else
#ifndef L11
#define L11
#include "sixteen_files_in_one_another.c"
#else
#ifndef L12
#define L12
#include "sixteen_files_in_one_another.c"
#else
#ifndef L13
#define L13
#include "sixteen_files_in_one_another.c"
#else
#ifndef L14
#define L14
#include "sixteen_files_in_one_another.c"
#else
#ifndef L15
#define L15
#include "sixteen_files_in_one_another.c"
#else
#ifndef L16
#define L16
#include "sixteen_files_in_one_another.c"
#else

void main() { }

#endif
#endif
#endif
#endif
#endif
#endif
#endif
#endif
#endif
#endif
#endif
#endif
#endif
#endif
#endif
#endif
