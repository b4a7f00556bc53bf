/* The product of two matrices of 16 rows, whose elements stand row by row in an array, and of that with the second, ten times. */
#include "machine.h"
#include "checked.h"

void print(int number) {
  if (number > 9) print(number / 10);
  putchar('0' + number % 10);
}

void multiply(A(int) left, A(int) right, A(int) product, int size) {
  for (int row = 0; row < size; row++)
    for (int column = 0; column < size; column++) {
      int sum = 0;
      for (int index = 0; index < size; index++) sum += left[row * size + index] * right[index * size + column];
      product[row * size + column] = sum & 255;
    }
}

ARRAY(int, left, 256);
ARRAY(int, right, 256);
ARRAY(int, product, 256);

int main(void) {
  for (int index = 0; index < 256; index++) left[index] = index % 7;
  for (int index = 0; index < 256; index++) right[index] = index % 5;
  for (int turn = 0; turn < 5; turn++) {
    multiply(left, right, product, 16);
    multiply(product, right, left, 16);
  }
  for (int index = 0; index < 256; index += 17) {
    print(left[index]);
    putchar('\n');
  }
  return 0;
}
