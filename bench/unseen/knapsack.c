/* The most that fits into a sack, for sacks of each size. */
#include "machine.h"

void print(int number) {
  if (number > 9) print(number / 10);
  putchar('0' + number % 10);
}

int best[2001];

int main(void) {
  int weight = 17, worth = 31;
  for (int item = 0; item < 1200; item++) {
    weight = (weight * 13 + 7) % 97 + 1;
    worth = (worth * 29 + 11) % 211 + 1;
    for (int room = 2000; room >= weight; room--)
      if (best[room - weight] + worth > best[room]) best[room] = best[room - weight] + worth;
  }
  print(best[2000]);
  putchar('\n');
  return 0;
}
