// Nine times 1,111 files, the source, and one more.
#ifndef L1
#define L1
#include "one_file_too_many.c"
#include "one_file_too_many.c"
#include "one_file_too_many.c"
#include "one_file_too_many.c"
#include "one_file_too_many.c"
#include "one_file_too_many.c"
#include "one_file_too_many.c"
#include "one_file_too_many.c"
#include "one_file_too_many.c"
#include "one_file_too_many.c" // error 22
#undef L1

void main() { }

#else
#ifndef L2
#define L2
#include "one_file_too_many.c"
#include "one_file_too_many.c"
#include "one_file_too_many.c"
#include "one_file_too_many.c"
#include "one_file_too_many.c"
#include "one_file_too_many.c"
#include "one_file_too_many.c"
#include "one_file_too_many.c"
#include "one_file_too_many.c"
#include "one_file_too_many.c"
#undef L2
#else
#ifndef L3
#define L3
#include "one_file_too_many.c"
#include "one_file_too_many.c"
#include "one_file_too_many.c"
#include "one_file_too_many.c"
#include "one_file_too_many.c"
#include "one_file_too_many.c"
#include "one_file_too_many.c"
#include "one_file_too_many.c"
#include "one_file_too_many.c"
#include "one_file_too_many.c"
#undef L3
#else
#ifndef L4
#define L4
#include "one_file_too_many.c"
#include "one_file_too_many.c"
#include "one_file_too_many.c"
#include "one_file_too_many.c"
#include "one_file_too_many.c"
#include "one_file_too_many.c"
#include "one_file_too_many.c"
#include "one_file_too_many.c"
#include "one_file_too_many.c"
#include "one_file_too_many.c"
#undef L4
#endif
#endif
#endif
#endif
