#include <stddef.h>
#if __has_include_next(<float.h>)
#include_next <float.h>
#endif
