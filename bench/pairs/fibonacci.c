/* Fibonacci's numbers by their definition: two calls for each number above 1. */
#include "machine.h"

void print(int number) {
  if (number > 9) print(number / 10);
  putchar('0' + number % 10);
}

int fibonacci(int n) {
  if (n < 2) return n;
  return fibonacci(n - 1) + fibonacci(n - 2);
}

int main(void) {
  for (int n = 0; n < 20; n++) {
    print(fibonacci(n));
    putchar('\n');
  }
  return 0;
}
