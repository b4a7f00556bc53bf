/* In how many ways seven queens stand on a board of seven rows so that none takes another: a queen a row, and an array has the column
   of each. */
#include "machine.h"
#include "checked.h"

void print(int number) {
  if (number > 9) print(number / 10);
  putchar('0' + number % 10);
}

int is_free(A(int) columns, int row, int column) {
  for (int above = 0; above < row; above++) {
    int other = columns[above];
    if (other == column || other - column == row - above || column - other == row - above) return 0;
  }
  return 1;
}

int ways(A(int) columns, int row, int size) {
  if (row == size) return 1;
  int count = 0;
  for (int column = 0; column < size; column++)
    if (is_free(columns, row, column)) {
      columns[row] = column;
      count += ways(columns, row + 1, size);
    }
  return count;
}

ARRAY(int, columns, 7);

int main(void) {
  print(ways(columns, 0, 7));
  putchar('\n');
  return 0;
}
