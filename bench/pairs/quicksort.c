/* Sorts 1,000 numbers from a generator, each part by the element in its middle, and prints every hundredth. */
#include "machine.h"
#include "checked.h"

void print(int number) {
  if (number > 9) print(number / 10);
  putchar('0' + number % 10);
}

void sort(A(int) numbers, int low, int high) {
  int left = low;
  int right = high;
  int middle = numbers[(low + high) / 2];
  while (left <= right) {
    while (numbers[left] < middle) left++;
    while (numbers[right] > middle) right--;
    if (left <= right) {
      int number = numbers[left];
      numbers[left] = numbers[right];
      numbers[right] = number;
      left++;
      right--;
    }
  }
  if (low < right) sort(numbers, low, right);
  if (left < high) sort(numbers, left, high);
}

ARRAY(int, numbers, 1000);

int main(void) {
  int state = 1;
  for (int index = 0; index < 1000; index++) {
    state = state * 1103515245 + 12345;
    numbers[index] = state >> 16 & 32767;
  }
  sort(numbers, 0, 999);
  for (int index = 0; index < 1000; index += 100) {
    print(numbers[index]);
    putchar('\n');
  }
  return 0;
}
