/* Rows of a picture as lengths of runs: two bytes for each run, and back again. */
#include "machine.h"
#include "checked.h"

void print(int number) {
  if (number > 9) print(number / 10);
  putchar('0' + number % 10);
}

/* Packs `n` bytes, and gives how many come of it. */
int pack(A(unsigned char) in, int n, A(unsigned char) out) {
  int o = 0;
  int i = 0;
  while (i < n) {
    unsigned char c = in[i];
    int run = 1;
    while (i + run < n && in[i + run] == c && run < 255) run++;
    out[o++] = run;
    out[o++] = c;
    i += run;
  }
  return o;
}

int unpack(A(unsigned char) in, int n, A(unsigned char) out) {
  int o = 0;
  for (int i = 0; i < n; i += 2)
    for (int left = in[i]; left > 0; left--) out[o++] = in[i + 1];
  return o;
}

int same(A(unsigned char) a, A(unsigned char) b, int n) {
  for (int i = 0; i < n; i++)
    if (a[i] != b[i]) return 0;
  return 1;
}

/* A row of the picture of a disk, with some noise. */
void draw(A(unsigned char) row, int y) {
  for (int x = 0; x < 64; x++) {
    int dx = x - 32;
    int dy = y - 32;
    if (dx * dx + dy * dy < 700) row[x] = '#';
    else if ((x ^ y) % 13 == 0) row[x] = '.';
    else row[x] = ' ';
  }
}

ARRAY(unsigned char, row, 64);
ARRAY(unsigned char, packed, 128);
ARRAY(unsigned char, again, 64);

int main(void) {
  int bytes = 0;
  int good = 0;
  for (int y = 0; y < 64; y++) {
    draw(row, y);
    int length = pack(row, 64, packed);
    bytes += length;
    if (unpack(packed, length, again) == 64 && same(row, again, 64)) good++;
  }
  print(bytes);
  putchar(' ');
  print(good);
  putchar('\n');
  return 0;
}
