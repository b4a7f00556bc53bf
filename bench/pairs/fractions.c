/* Sums of fractions, each a struct with a numerator and a denominator, kept small by their greatest common divisor. */
#include "machine.h"
#include "checked.h"

void print(int number) {
  if (number > 9) print(number / 10);
  putchar('0' + number % 10);
}

struct Fraction {
  int over;
  int under;
};

ARRAY(struct Fraction, pool, 2);

int divisor(int a, int b) {
  while (b != 0) {
    int rest = a % b;
    a = b;
    b = rest;
  }
  return a;
}

void reduce(P(struct Fraction) it) {
  int by = divisor(it->over, it->under);
  if (by > 1) {
    it->over /= by;
    it->under /= by;
  }
}

void add(P(struct Fraction) sum, P(struct Fraction) other) {
  sum->over = sum->over * other->under + other->over * sum->under;
  sum->under = sum->under * other->under;
  reduce(sum);
}

int is_small(P(struct Fraction) it) {
  return it->over < 10000 && it->under < 10000;
}

int main(void) {
  P(struct Fraction) sum = &pool[0];
  P(struct Fraction) other = &pool[1];
  sum->over = 0;
  sum->under = 1;
  int total = 0;
  for (int turn = 1; turn < 1200; turn++) {
    other->over = turn % 9 + 1;
    other->under = turn % 12 + 1;
    reduce(other);
    add(sum, other);
    if (!is_small(sum)) {
      total += sum->over % 1000 + sum->under;
      sum->over = 0;
      sum->under = 1;
    }
  }
  print(total);
  putchar('\n');
  return 0;
}
