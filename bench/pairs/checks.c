/* A cyclic check of the bytes of a text, by a table that is made first. */
#include "machine.h"
#include "checked.h"

void print(int number) {
  if (number > 9) print(number / 10);
  putchar('0' + number % 10);
}

ARRAY(int, table, 256);
ARRAY(unsigned char, text, 500);

int entry(int number) {
  for (int bit = 0; bit < 8; bit++) {
    if (number & 1) number = (unsigned)number >> 1 ^ 0xedb88320;
    else number = (unsigned)number >> 1;
  }
  return number;
}

int check(A(unsigned char) text, int length) {
  int sum = -1;
  for (int i = 0; i < length; i++) sum = table[(sum ^ text[i]) & 255] ^ (unsigned)sum >> 8;
  return ~sum;
}

int main(void) {
  for (int i = 0; i < 256; i++) table[i] = entry(i);
  for (int i = 0; i < 500; i++) text[i] = 'a' + i * 3 % 26;
  int sum = 0;
  for (int turn = 0; turn < 20; turn++) {
    sum ^= check(text, 500);
    text[turn * 20] = 'A' + turn;
  }
  print((unsigned)sum >> 1);
  putchar('\n');
  return 0;
}
