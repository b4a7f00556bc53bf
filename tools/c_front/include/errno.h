#include <stddef.h>
#if __has_include_next(<errno.h>)
#include_next <errno.h>
#endif
