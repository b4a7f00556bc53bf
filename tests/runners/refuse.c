/* Refuses one allocation of the program into which it is loaded (LD_PRELOAD), for tests/runners/refused.py. The calls of malloc,
   calloc and realloc are counted from 1; the one with the number in REFUSE_AT is answered with NULL. At the end of the
   program the file that REFUSE_COUNT names gets the number of calls. */
#include <errno.h>
#include <stdio.h>
#include <stdlib.h>

extern void *__libc_malloc(size_t size);
extern void *__libc_calloc(size_t count, size_t size);
extern void *__libc_realloc(void *old, size_t size);

static long calls;

static int is_refused(void) {
  const char *at = getenv("REFUSE_AT");
  calls++;
  if (!at || atol(at) != calls) return 0;
  errno = ENOMEM;
  return 1;
}

void *malloc(size_t size) {
  return is_refused() ? NULL : __libc_malloc(size);
}

void *calloc(size_t count, size_t size) {
  return is_refused() ? NULL : __libc_calloc(count, size);
}

void *realloc(void *old, size_t size) {
  return is_refused() ? NULL : __libc_realloc(old, size);
}

__attribute__((destructor)) static void tell(void) {
  const char *path = getenv("REFUSE_COUNT");
  long count = calls;
  FILE *file = path ? fopen(path, "w") : NULL;
  if (!file) return;
  fprintf(file, "%ld\n", count);
  fclose(file);
}
