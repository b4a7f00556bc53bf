/* The shortest ways between all places of a map. */
#include "machine.h"

void print(int number) {
  if (number > 9) print(number / 10);
  putchar('0' + number % 10);
}

int way[64][64];

int main(void) {
  for (int from = 0; from < 64; from++)
    for (int to = 0; to < 64; to++) way[from][to] = from == to ? 0 : (from * 37 + to * 101) % 499 + 1;
  for (int turn = 0; turn < 6; turn++)
    for (int over = 0; over < 64; over++)
      for (int from = 0; from < 64; from++)
        for (int to = 0; to < 64; to++)
          if (way[from][over] + way[over][to] < way[from][to]) way[from][to] = way[from][over] + way[over][to];
  int sum = 0;
  for (int from = 0; from < 64; from++)
    for (int to = 0; to < 64; to++) sum += way[from][to];
  print(sum);
  putchar('\n');
  return 0;
}
