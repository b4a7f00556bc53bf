/* A walk over a board from one corner, by a queue of the fields that are reached. */
#include "machine.h"

void print(int number) {
  if (number > 9) print(number / 10);
  putchar('0' + number % 10);
}

int reached[4096], queue[4096];

int main(void) {
  int sum = 0;
  for (int turn = 1; turn <= 300; turn++) {
    int first = 0, last = 1;
    for (int field = 0; field < 4096; field++) reached[field] = field % 7 == turn % 7 ? -2 : -1;
    queue[0] = turn;
    reached[turn] = 0;
    while (first < last) {
      int field = queue[first++], row = field >> 6, column = field & 63;
      if (row > 0 && reached[field - 64] == -1) reached[field - 64] = reached[field] + 1, queue[last++] = field - 64;
      if (row < 63 && reached[field + 64] == -1) reached[field + 64] = reached[field] + 1, queue[last++] = field + 64;
      if (column > 0 && reached[field - 1] == -1) reached[field - 1] = reached[field] + 1, queue[last++] = field - 1;
      if (column < 63 && reached[field + 1] == -1) reached[field + 1] = reached[field] + 1, queue[last++] = field + 1;
    }
    sum += reached[queue[last - 1]] + last;
  }
  print(sum);
  putchar('\n');
  return 0;
}
