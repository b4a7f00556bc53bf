/* How many letters must be changed, put in or taken out to make one word of another: a row of the table at a time. */
#include "machine.h"
#include "checked.h"

void print(int number) {
  if (number > 9) print(number / 10);
  putchar('0' + number % 10);
}

ARRAY(unsigned char, left, 40);
ARRAY(unsigned char, right, 50);
ARRAY(int, above, 51);
ARRAY(int, here, 51);

int least(int a, int b) {
  return a < b ? a : b;
}

int distance(A(unsigned char) left, int rows, A(unsigned char) right, int columns) {
  for (int column = 0; column <= columns; column++) above[column] = column;
  for (int row = 1; row <= rows; row++) {
    here[0] = row;
    for (int column = 1; column <= columns; column++) {
      int changed = above[column - 1];
      if (left[row - 1] != right[column - 1]) changed++;
      here[column] = least(least(above[column], here[column - 1]) + 1, changed);
    }
    for (int column = 0; column <= columns; column++) above[column] = here[column];
  }
  return above[columns];
}

int main(void) {
  for (int i = 0; i < 40; i++) left[i] = 'a' + i * 3 % 7;
  for (int i = 0; i < 50; i++) right[i] = 'a' + i * i % 7;
  int sum = 0;
  for (int turn = 0; turn < 10; turn++) {
    sum += distance(left, 30 + turn, right, 50 - turn);
    left[turn] = 'a' + turn;
  }
  print(sum);
  putchar('\n');
  return 0;
}
