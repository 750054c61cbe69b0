// Nine times 1,111 files, and the source.
#ifndef L1
#define L1
#include "as_many_files_as_there_may_be.c"
#include "as_many_files_as_there_may_be.c"
#include "as_many_files_as_there_may_be.c"
#include "as_many_files_as_there_may_be.c"
#include "as_many_files_as_there_may_be.c"
#include "as_many_files_as_there_may_be.c"
#include "as_many_files_as_there_may_be.c"
#include "as_many_files_as_there_may_be.c"
#include "as_many_files_as_there_may_be.c"
#undef L1

void main() { }

#else
#ifndef L2
#define L2
#include "as_many_files_as_there_may_be.c"
#include "as_many_files_as_there_may_be.c"
#include "as_many_files_as_there_may_be.c"
#include "as_many_files_as_there_may_be.c"
#include "as_many_files_as_there_may_be.c"
#include "as_many_files_as_there_may_be.c"
#include "as_many_files_as_there_may_be.c"
#include "as_many_files_as_there_may_be.c"
#include "as_many_files_as_there_may_be.c"
#include "as_many_files_as_there_may_be.c"
#undef L2
#else
#ifndef L3
#define L3
#include "as_many_files_as_there_may_be.c"
#include "as_many_files_as_there_may_be.c"
#include "as_many_files_as_there_may_be.c"
#include "as_many_files_as_there_may_be.c"
#include "as_many_files_as_there_may_be.c"
#include "as_many_files_as_there_may_be.c"
#include "as_many_files_as_there_may_be.c"
#include "as_many_files_as_there_may_be.c"
#include "as_many_files_as_there_may_be.c"
#include "as_many_files_as_there_may_be.c"
#undef L3
#else
#ifndef L4
#define L4
#include "as_many_files_as_there_may_be.c"
#include "as_many_files_as_there_may_be.c"
#include "as_many_files_as_there_may_be.c"
#include "as_many_files_as_there_may_be.c"
#include "as_many_files_as_there_may_be.c"
#include "as_many_files_as_there_may_be.c"
#include "as_many_files_as_there_may_be.c"
#include "as_many_files_as_there_may_be.c"
#include "as_many_files_as_there_may_be.c"
#include "as_many_files_as_there_may_be.c"
#undef L4
#endif
#endif
#endif
#endif
