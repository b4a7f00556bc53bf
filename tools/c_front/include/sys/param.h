#include <stddef.h>
#if __has_include_next(<sys/param.h>)
#include_next <sys/param.h>
#endif
