#ifndef _CDEFS_H
#define _CDEFS_H
#if __has_include_next(<sys/cdefs.h>)
#include_next <sys/cdefs.h>
#else
#include <stddef.h>
#define __BEGIN_DECLS
#define __END_DECLS
#define __P(x) x
#define __THROW
#define __nonnull(x)
#define __dead
#define __COPYRIGHT(x)
#define __RCSID(x)
#define __SCCSID(x)
#define __FBSDID(x)
#endif
#endif
