#include <stddef.h>
#if __has_include_next(<signal.h>)
#include_next <signal.h>
#endif
