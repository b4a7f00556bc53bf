/* A board of rows, each an array of chars: cells that live on by how many of their neighbours do. */
#include "machine.h"
#include "checked.h"

void print(int number) {
  if (number > 9) print(number / 10);
  putchar('0' + number % 10);
}

ARRAY(A(unsigned char), board, 24);
ARRAY(A(unsigned char), next, 24);
ARRAY(unsigned char, pool, 1152);

int count_at(A(A(unsigned char)) board, int row, int column) {
  if (row < 0 || row >= 24 || column < 0 || column >= 24) return 0;
  return board[row][column] == '#';
}

int neighbours(A(A(unsigned char)) board, int row, int column) {
  int count = 0;
  for (int i = -1; i <= 1; i++)
    for (int j = -1; j <= 1; j++)
      if (i != 0 || j != 0) count += count_at(board, row + i, column + j);
  return count;
}

void step(A(A(unsigned char)) board, A(A(unsigned char)) next) {
  for (int row = 0; row < 24; row++)
    for (int column = 0; column < 24; column++) {
      int count = neighbours(board, row, column);
      if (count == 3 || count == 2 && board[row][column] == '#') next[row][column] = '#';
      else next[row][column] = '.';
    }
}

int main(void) {
  for (int row = 0; row < 24; row++) {
    board[row] = PART(unsigned char, pool, 24 * row, 24);
    next[row] = PART(unsigned char, pool, 576 + 24 * row, 24);
    for (int column = 0; column < 24; column++) board[row][column] = '.';
  }
  for (int i = 0; i < 200; i++) board[i * 7 % 24][i * 11 % 23] = '#';
  for (int turn = 0; turn < 10; turn++) {
    step(board, next);
    step(next, board);
  }
  int sum = 0;
  for (int row = 0; row < 24; row++)
    for (int column = 0; column < 24; column++) sum = sum * 2 + count_at(board, row, column) & 65535;
  print(sum);
  putchar('\n');
  return 0;
}
