/* Constants that a conversion makes smaller. */
#include <stdio.h>

static short wrap(short s) { return s; }
static unsigned char byte(unsigned char c) { return c; }

int main(void)
{
  short s = 0x12345, t = 0xd7a73c59;
  unsigned short u = 0xfffff;
  signed char c = 0x1ff;
  int low = 0x19b17c08a59c2d16LL, bits = (short)0x18001;
  short a[2] = { 0x12345, 0x18000 };
  printf("%d %d %d %d %d %d %d %d\n", s, t, u, c, low, bits, a[0], a[1]);
  printf("%d %d %d\n", wrap(0x1ffff), byte(0x1234), (unsigned char)0x1f0);
  s = 0x2abcd;
  u += 0x12345;
  printf("%d %d %d\n", s, u, s == (short)0x2abcd);
  return byte(0xabc);
}
