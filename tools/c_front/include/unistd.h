#include <stddef.h>
#if __has_include_next(<unistd.h>)
#include_next <unistd.h>
#endif
