#ifndef _TYPES_H
#define _TYPES_H
#include <stdint.h>
#if __has_include_next(<sys/types.h>)
#include_next <sys/types.h>
#else
typedef long ssize_t;
typedef long off_t;
typedef unsigned char u_char;
typedef unsigned short u_short;
typedef unsigned int u_int;
typedef unsigned long u_long;
typedef unsigned int uint;
typedef int pid_t;
#endif
#endif
