#include <stddef.h>
#if __has_include_next(<sys/stat.h>)
#include_next <sys/stat.h>
#endif
