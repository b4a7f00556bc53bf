#include <stddef.h>
#if __has_include_next(<sys/time.h>)
#include_next <sys/time.h>
#endif
