/* How many pairs of numbers up to 80 have no common divisor, by Euclid's algorithm. */
#include "machine.h"

void print(int number) {
  if (number > 9) print(number / 10);
  putchar('0' + number % 10);
}

int greatest_common_divisor(int a, int b) {
  while (b != 0) {
    int rest = a % b;
    a = b;
    b = rest;
  }
  return a;
}

int main(void) {
  int pairs = 0;
  for (int first = 1; first <= 80; first++)
    for (int second = 1; second <= 80; second++)
      if (greatest_common_divisor(first, second) == 1) pairs++;
  print(pairs);
  putchar('\n');
  return 0;
}
