/* Sums that show whether a block of bytes was spoiled on its way: CRC-32 by a table, Adler's, Fletcher's, and a plain exclusive or. */
#include "machine.h"
#include "checked.h"

void print(int number) {
  if (number > 9) print(number / 10);
  putchar('0' + number % 10);
}

ARRAY(unsigned, table, 256);
ARRAY(unsigned char, block, 1000);

int main(void) {
  for (int i = 0; i < 1000; i++) block[i] = i * i + 7 * i;
  for (int n = 0; n < 256; n++) {
    unsigned c = n;
    for (int k = 0; k < 8; k++) {
      if (c & 1) c = c >> 1 ^ 0xedb88320u;
      else c = c >> 1;
    }
    table[n] = c;
  }
  int check = 0;
  for (int turn = 0; turn < 8; turn++) {
    unsigned crc = -1;
    for (int i = 0; i < 1000; i++) crc = table[(crc ^ block[i]) & 255] ^ crc >> 8;
    int a = 1;
    int b = 0;
    for (int i = 0; i < 1000; i++) {
      a = (a + block[i]) % 65521;
      b = (b + a) % 65521;
    }
    int low = 0;
    int high = 0;
    int parity = 0;
    for (int i = 0; i < 1000; i++) {
      low += block[i];
      if (low >= 255) low -= 255;
      high += low;
      if (high >= 255) high -= 255;
      parity ^= block[i];
    }
    check = check * 31 ^ ~crc ^ b << 16 ^ a ^ high << 8 ^ low ^ parity;
    block[turn * 111]++;
  }
  print((unsigned)check >> 16);
  putchar(' ');
  print(check & 65535);
  putchar('\n');
  return 0;
}
