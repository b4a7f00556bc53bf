#include <stddef.h>
#if __has_include_next(<setjmp.h>)
#include_next <setjmp.h>
#endif
