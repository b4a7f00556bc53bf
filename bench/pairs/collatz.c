/* The start below 1,000 from which halving even numbers, and tripling odd ones and adding 1, takes longest to come to 1. */
#include "machine.h"

void print(int number) {
  if (number > 9) print(number / 10);
  putchar('0' + number % 10);
}

int steps_from(int number) {
  int steps = 0;
  while (number != 1) {
    if (number % 2 == 0) number = number / 2;
    else number = 3 * number + 1;
    steps++;
  }
  return steps;
}

int main(void) {
  int longest = 0;
  int best = 1;
  for (int start = 1; start < 1000; start++) {
    int steps = steps_from(start);
    if (steps > longest) {
      longest = steps;
      best = start;
    }
  }
  print(best);
  putchar(' ');
  print(longest);
  putchar('\n');
  return 0;
}
