/* An allocator that hands out one word behind another and takes nothing back, to count what a compilation takes beside the one of the
   C library: docs/FIGURES.md has the commands. In front of each block stands its length. */
#include <stddef.h>
#include <string.h>

static char pool[1 << 28];
static size_t used;

void *malloc(size_t length) {
  length = (length + 15) & ~(size_t)15;
  if (length > sizeof pool - used - 16)
    return NULL;
  size_t *block = (size_t *)(pool + used);
  used += length + 16;
  block[0] = length;
  return block + 2;
}

void free(void *block) { (void)block; }

/* The pool is 0 where nothing was handed out. */
void *calloc(size_t count, size_t length) { return malloc(count * length); }

void *realloc(void *block, size_t length) {
  size_t had = block ? ((size_t *)block)[-2] : 0;
  if (block && length <= had)
    return block;
  void *other = malloc(length);
  if (other && block)
    memcpy(other, block, had);
  return other;
}
