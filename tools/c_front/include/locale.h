#include <stddef.h>
#if __has_include_next(<locale.h>)
#include_next <locale.h>
#endif
