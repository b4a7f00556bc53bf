/* A sudoku by trying: the empty cell with the fewest digits that fit is filled with each of them in turn. Sets of digits are bits. */
#include "machine.h"
#include "checked.h"

ARRAY(int, cells, 81);
ARRAY(int, rows, 9);
ARRAY(int, columns, 9);
ARRAY(int, boxes, 9);
int tried;

void print(int number) {
  if (number > 9) print(number / 10);
  putchar('0' + number % 10);
}

void put(int cell, int digit) {
  int bit = 1 << digit;
  int row = cell / 9;
  int column = cell % 9;
  cells[cell] = digit;
  rows[row] |= bit;
  columns[column] |= bit;
  boxes[row / 3 * 3 + column / 3] |= bit;
}

void take(int cell) {
  int bit = ~(1 << cells[cell]);
  int row = cell / 9;
  int column = cell % 9;
  cells[cell] = 0;
  rows[row] &= bit;
  columns[column] &= bit;
  boxes[row / 3 * 3 + column / 3] &= bit;
}

int free_digits(int cell) {
  int row = cell / 9;
  int column = cell % 9;
  return ~(rows[row] | columns[column] | boxes[row / 3 * 3 + column / 3]) & 1022;
}

int count_bits(int set) {
  int count = 0;
  for (; set != 0; set &= set - 1) count++;
  return count;
}

int solve(void) {
  int best = -1;
  int least = 10;
  for (int cell = 0; cell < 81; cell++) {
    if (cells[cell] == 0) {
      int count = count_bits(free_digits(cell));
      if (count < least) {
        least = count;
        best = cell;
      }
    }
  }
  if (best < 0) return 1;
  int set = free_digits(best);
  for (int digit = 1; digit <= 9; digit++) {
    if (set >> digit & 1) {
      tried++;
      put(best, digit);
      if (solve()) return 1;
      take(best);
    }
  }
  return 0;
}

void set_row(int row, int digits) {
  for (int column = 8; column >= 0; column--) {
    if (digits % 10 != 0) put(row * 9 + column, digits % 10);
    digits /= 10;
  }
}

int main(void) {
  set_row(0, 530070000); set_row(1, 600195000); set_row(2, 98000060);
  set_row(3, 800060003); set_row(4, 400803001); set_row(5, 700020006);
  set_row(6, 60000280); set_row(7, 419005); set_row(8, 80079);
  putchar('0' + solve());
  putchar(' ');
  print(tried);
  putchar('\n');
  for (int cell = 0; cell < 81; cell++) {
    putchar('0' + cells[cell]);
    if (cell % 9 == 8) putchar('\n');
  }
  return 0;
}
