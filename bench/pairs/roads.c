/* The shortest ways between 20 places, by a table of rows. */
#include "machine.h"
#include "checked.h"

void print(int number) {
  if (number > 9) print(number / 10);
  putchar('0' + number % 10);
}

static const int FAR = 1000000;

ARRAY(A(int), roads, 20);
ARRAY(int, pool, 400);

void shorten(A(A(int)) roads, int count) {
  for (int over = 0; over < count; over++)
    for (int from = 0; from < count; from++)
      for (int to = 0; to < count; to++) {
        int length = roads[from][over] + roads[over][to];
        if (length < roads[from][to]) roads[from][to] = length;
      }
}

int first(int from, int to) {
  if (from == to) return 0;
  if ((from * 7 + to * 3) % 5 < 2) return from * 13 % 17 + to * 5 % 11 + 1;
  return FAR;
}

int main(void) {
  int sum = 0;
  for (int turn = 0; turn < 4; turn++) {
    for (int from = 0; from < 20; from++) {
      roads[from] = PART(int, pool, 20 * from, 20);
      for (int to = 0; to < 20; to++) roads[from][to] = first(from + turn, to);
    }
    shorten(roads, 20);
    for (int from = 0; from < 20; from++)
      for (int to = 0; to < 20; to++)
        if (roads[from][to] < FAR) sum += roads[from][to];
  }
  print(sum);
  putchar('\n');
  return 0;
}
