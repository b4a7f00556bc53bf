/* Ages of 900 people from a generator, all in `main`: how many have each, and all in order by counting. */
#include "machine.h"
#include "checked.h"

void print(int number) {
  if (number > 9) print(number / 10);
  putchar('0' + number % 10);
}

ARRAY(int, ages, 900);
ARRAY(int, tally, 128);
ARRAY(int, sorted, 900);

int main(void) {
  int seed = 42;
  int check = 0;
  for (int round = 0; round < 10; round++) {
    for (int i = 0; i < 900; i++) {
      seed = seed * 1664525 + 1013904223;
      ages[i] = (seed >> 20 & 63) + (seed >> 12 & 63);
    }
    for (int i = 0; i < 128; i++) tally[i] = 0;
    for (int i = 0; i < 900; i++) tally[ages[i]]++;
    for (int i = 1; i < 128; i++) tally[i] += tally[i - 1];
    for (int i = 899; i >= 0; i--) sorted[--tally[ages[i]]] = ages[i];
    int longest = 0;
    int length = 1;
    for (int i = 1; i < 900; i++) {
      if (sorted[i] == sorted[i - 1]) length++;
      else length = 1;
      if (length > longest) longest = length;
    }
    check = check * 3 + sorted[450] + longest & 1048575;
  }
  print(check);
  putchar(' ');
  print(sorted[0]);
  putchar(' ');
  print(sorted[899]);
  putchar('\n');
  return 0;
}
