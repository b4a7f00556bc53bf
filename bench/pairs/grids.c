/* Grids as structs with functions that get and set a cell: products of two of 12 rows. */
#include "machine.h"
#include "checked.h"

void print(int number) {
  if (number > 9) print(number / 10);
  putchar('0' + number % 10);
}

struct Grid {
  int rows;
  int columns;
  A(int) cells;
};

ARRAY(struct Grid, grids, 3);
ARRAY(int, pool, 432);
static int used;

P(struct Grid) made(int rows, int columns) {
  P(struct Grid) grid = &grids[used / 144];
  grid->rows = rows;
  grid->columns = columns;
  grid->cells = PART(int, pool, used, rows * columns);
  used += rows * columns;
  for (int i = 0; i < rows * columns; i++) grid->cells[i] = i * 7 % 10;
  return grid;
}

int get(P(struct Grid) grid, int row, int column) {
  return grid->cells[row * grid->columns + column];
}

void set(P(struct Grid) grid, int row, int column, int value) {
  grid->cells[row * grid->columns + column] = value;
}

void multiply(P(struct Grid) left, P(struct Grid) right, P(struct Grid) product) {
  for (int row = 0; row < left->rows; row++)
    for (int column = 0; column < right->columns; column++) {
      int sum = 0;
      for (int index = 0; index < left->columns; index++) sum += get(left, row, index) * get(right, index, column);
      set(product, row, column, sum % 10);
    }
}

int main(void) {
  P(struct Grid) left = made(12, 12);
  P(struct Grid) right = made(12, 12);
  P(struct Grid) product = made(12, 12);
  for (int turn = 0; turn < 8; turn++) {
    multiply(left, right, product);
    multiply(product, right, left);
  }
  for (int row = 0; row < 12; row++) print(get(left, row, 11 - row));
  putchar('\n');
  return 0;
}
