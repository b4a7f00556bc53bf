/* Which names a pattern with `*` and `?` means: names and patterns end with 0, and a pointer moves along each. */
#include "machine.h"
#include "checked.h"

void print(int number) {
  if (number > 9) print(number / 10);
  putchar('0' + number % 10);
}

int matches(A(unsigned char) pattern, A(unsigned char) name) {
  while (*pattern != 0) {
    if (*pattern == '*') {
      while (*pattern == '*') pattern = pattern + 1;
      if (*pattern == 0) return 1;
      while (*name != 0) {
        if (matches(pattern, name)) return 1;
        name = name + 1;
      }
      return 0;
    }
    if (*name == 0) return 0;
    if (*pattern != '?' && *pattern != *name) return 0;
    pattern = pattern + 1;
    name = name + 1;
  }
  return *name == 0;
}

void make_name(A(unsigned char) name, int seed) {
  int length = seed % 9 + 4;
  for (int i = 0; i < length; i++) name[i] = 'a' + (seed >> i) % 3;
  name[length] = 0;
}

void make_pattern(A(unsigned char) pattern, int seed) {
  int i;
  for (i = 0; i < 6; i++) {
    int kind = seed >> 2 * i & 3;
    if (kind == 3 && i % 2 == 0) pattern[i] = '*';
    else if (kind == 3) pattern[i] = '?';
    else pattern[i] = 'a' + kind;
  }
  if (seed & 1) pattern[i++] = '*';
  pattern[i] = 0;
}

ARRAY(unsigned char, name, 16);
ARRAY(unsigned char, pattern, 8);

int main(void) {
  int state = 4;
  int found = 0;
  for (int turn = 0; turn < 60; turn++) {
    state = state * 1103515245 + 12345;
    make_pattern(pattern, state >> 12 & 65535);
    for (int i = 0; i < 40; i++) {
      make_name(name, i * 331 + turn * 17);
      found += matches(pattern, name);
    }
  }
  print(found);
  putchar('\n');
  return 0;
}
