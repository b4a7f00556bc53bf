/* Generations of cells on a board that is a ring in both ways. */
#include "machine.h"

void print(int number) {
  if (number > 9) print(number / 10);
  putchar('0' + number % 10);
}

int now[1024], then[1024];

int neighbours(int row, int column) {
  int count = 0;
  for (int down = -1; down <= 1; down++)
    for (int right = -1; right <= 1; right++)
      if (down != 0 || right != 0) count += now[((row + down) & 31) * 32 + ((column + right) & 31)];
  return count;
}

int main(void) {
  for (int cell = 0; cell < 1024; cell++) now[cell] = (cell * cell / 7 + cell) & 1;
  for (int turn = 0; turn < 150; turn++) {
    for (int row = 0; row < 32; row++)
      for (int column = 0; column < 32; column++) {
        int count = neighbours(row, column);
        then[row * 32 + column] = count == 3 || (count == 2 && now[row * 32 + column]);
      }
    for (int cell = 0; cell < 1024; cell++) now[cell] = then[cell];
  }
  int sum = 0;
  for (int cell = 0; cell < 1024; cell++) sum += now[cell] * cell;
  print(sum);
  putchar('\n');
  return 0;
}
