#include <stddef.h>
#if __has_include_next(<wchar.h>)
#include_next <wchar.h>
#endif
