/* All orders of eight numbers, each made of the one before, and how many of them rise at most three times. */
#include "machine.h"

void print(int number) {
  if (number > 9) print(number / 10);
  putchar('0' + number % 10);
}

int order[8];

int found;

void place(int count) {
  if (count == 8) {
    int rises = 0;
    for (int at = 1; at < 8; at++) rises += order[at - 1] < order[at];
    found += rises <= 3;
    return;
  }
  for (int at = count; at < 8; at++) {
    int other = order[at];
    order[at] = order[count];
    order[count] = other;
    place(count + 1);
    order[count] = order[at];
    order[at] = other;
  }
}

int main(void) {
  for (int turn = 0; turn < 3; turn++) {
    for (int at = 0; at < 8; at++) order[at] = at;
    place(0);
  }
  print(found);
  putchar('\n');
  return 0;
}
