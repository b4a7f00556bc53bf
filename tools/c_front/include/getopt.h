#include <stddef.h>
#if __has_include_next(<getopt.h>)
#include_next <getopt.h>
#endif
