/* A sum of a text by rotations, exclusive ors and small functions, as the ones that secure a message have. */
#include "machine.h"
#include "checked.h"

void print(int number) {
  if (number > 9) print(number / 10);
  putchar('0' + number % 10);
}

ARRAY(int, words, 16);

int rotated(int word, int count) {
  return (unsigned)word << count | (unsigned)word >> (32 - count);
}

int chosen(int x, int y, int z) {
  return x & y ^ ~x & z;
}

int most(int x, int y, int z) {
  return x & y ^ x & z ^ y & z;
}

int schedule(A(int) words, int i) {
  int one = words[i & 15];
  int other = words[i + 7 & 15];
  words[i & 15] = rotated(one, 7) + (one ^ other) + i;
  return words[i & 15];
}

int main(void) {
  for (int i = 0; i < 16; i++) words[i] = i * 1234567;
  int a = 1779033703;
  int b = -1150833019;
  int c = 1013904242;
  int d = -1521486534;
  for (int turn = 0; turn < 3000; turn++) {
    int next = rotated(a, 5) + chosen(b, c, d) + schedule(words, turn) + most(a, b, c);
    d = c;
    c = rotated(b, 30);
    b = a;
    a = next;
  }
  print(a >> 8 & 16777215);
  putchar(' ');
  print(d >> 8 & 16777215);
  putchar('\n');
  return 0;
}
