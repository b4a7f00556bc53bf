/* The Mandelbrot set, drawn in characters, with numbers of 12 bits behind the point. */
#include "machine.h"

int iterations(int cx, int cy, int most) {
  int x = 0;
  int y = 0;
  for (int i = 0; i < most; i++) {
    int xx = x * x >> 12;
    int yy = y * y >> 12;
    if (xx + yy > 4 << 12) return i;
    y = (x * y >> 11) + cy;
    x = xx - yy + cx;
  }
  return most;
}

void draw(int left, int top, int step) {
  for (int row = 0; row < 21; row++) {
    for (int column = 0; column < 48; column++) {
      int n = iterations(left + column * step, top + 2 * row * step, 40);
      if (n == 40) putchar('#');
      else if (n > 12) putchar('+');
      else if (n > 6) putchar('-');
      else if (n > 3) putchar('.');
      else putchar(' ');
    }
    putchar('\n');
  }
}

int main(void) {
  draw(-9200, -4900, 250);
  draw(-3400, -4400, 30);
  return 0;
}
