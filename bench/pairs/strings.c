/* Texts as arrays of chars that end with 0: their length, copies, comparisons, and what they are turned round. */
#include "machine.h"
#include "checked.h"

void print(int number) {
  if (number > 9) print(number / 10);
  putchar('0' + number % 10);
}

ARRAY(unsigned char, first, 100);
ARRAY(unsigned char, second, 100);

int length(A(unsigned char) text) {
  int count = 0;
  while (text[count] != 0) count++;
  return count;
}

void copy(A(unsigned char) to, A(unsigned char) from) {
  int i;
  for (i = 0; from[i] != 0; i++) to[i] = from[i];
  to[i] = 0;
}

int compare(A(unsigned char) left, A(unsigned char) right) {
  int i = 0;
  while (left[i] != 0 && left[i] == right[i]) i++;
  return left[i] - right[i];
}

void reverse(A(unsigned char) text) {
  int i = 0;
  int j = length(text) - 1;
  while (i < j) {
    unsigned char kept = text[i];
    text[i++] = text[j];
    text[j--] = kept;
  }
}

void fill(A(unsigned char) text, int count, int seed) {
  for (int i = 0; i < count; i++) text[i] = 'a' + (seed * 7 + i * i) % 26;
  text[count] = 0;
}

int main(void) {
  int sum = 0;
  for (int turn = 0; turn < 200; turn++) {
    fill(first, 20 + turn % 60, turn);
    copy(second, first);
    reverse(second);
    if (compare(first, second) < 0) sum += length(first);
    reverse(second);
    if (compare(first, second) == 0) sum++;
  }
  print(sum);
  putchar('\n');
  return 0;
}
