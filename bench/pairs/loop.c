/* Two counters in nested loops, and the sum of what they have bit by bit. */
#include "machine.h"

void print(int number) {
  if (number > 9) print(number / 10);
  putchar('0' + number % 10);
}

int main(void) {
  int sum = 0;
  for (int row = 0; row < 200; row++)
    for (int column = 0; column < 200; column++) sum += row ^ column;
  print(sum);
  putchar('\n');
  return 0;
}
