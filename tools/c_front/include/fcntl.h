#include <stddef.h>
#if __has_include_next(<fcntl.h>)
#include_next <fcntl.h>
#endif
