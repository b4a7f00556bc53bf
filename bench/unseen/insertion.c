/* Numbers of a generator, sorted by insertion. */
#include "machine.h"

void print(int number) {
  if (number > 9) print(number / 10);
  putchar('0' + number % 10);
}

int numbers[2500];

int main(void) {
  int state = 12345;
  for (int index = 0; index < 2500; index++) {
    state = state * 1103515245 + 12345;
    int number = state >> 16 & 32767, at = index;
    while (at > 0 && numbers[at - 1] > number) {
      numbers[at] = numbers[at - 1];
      at--;
    }
    numbers[at] = number;
  }
  print(numbers[1250]);
  putchar('\n');
  return 0;
}
