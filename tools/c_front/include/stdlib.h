#ifndef _STDLIB_H
#define _STDLIB_H
#include <stddef.h>
#define EXIT_SUCCESS 0
#define EXIT_FAILURE 1
#define RAND_MAX 2147483647
char *getenv(const char *name);
int system(const char *command);
double atof(const char *text);
double strtod(const char *text, char **end);
#endif
