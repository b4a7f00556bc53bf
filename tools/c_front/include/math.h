#include <stddef.h>
#if __has_include_next(<math.h>)
#include_next <math.h>
#endif
