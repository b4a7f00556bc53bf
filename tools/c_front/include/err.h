#include <stddef.h>
#if __has_include_next(<err.h>)
#include_next <err.h>
#endif
