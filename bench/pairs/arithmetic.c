/* Products, quotients, remainders and shifts of numbers that a generator makes, each from the one before. */
#include "machine.h"

void print(int number) {
  if (number > 9) print(number / 10);
  putchar('0' + number % 10);
}

int main(void) {
  int state = 1;
  int sum = 0;
  int bits = 0;
  for (int turn = 0; turn < 15000; turn++) {
    state = state * 1103515245 + 12345;
    int random = state >> 16 & 32767;
    sum += random / 7 - random % 11;
    bits = (bits << 3 ^ bits >> 2 ^ random) & 65535;
  }
  print(sum);
  putchar(' ');
  print(bits);
  putchar('\n');
  return 0;
}
