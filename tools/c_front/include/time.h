#ifndef _CYCLONE_TIME_H
#define _CYCLONE_TIME_H
#include <stddef.h>
#if __has_include_next(<time.h>)
#include_next <time.h>
#else
typedef long time_t;
typedef long clock_t;
#define CLOCKS_PER_SEC 1000000
#endif
#endif
