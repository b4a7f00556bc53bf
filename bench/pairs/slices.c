/* Merge sort by parts of an array: a half is a pointer into it. */
#include "machine.h"
#include "checked.h"

void print(int number) {
  if (number > 9) print(number / 10);
  putchar('0' + number % 10);
}

void copy(A(int) to, A(int) from, int n) {
  while (n > 0) {
    *to = *from;
    to = to + 1;
    from = from + 1;
    n--;
  }
}

void merge(A(int) left, int m, A(int) right, int n, A(int) out) {
  while (m > 0 && n > 0) {
    if (*right < *left) {
      *out = *right;
      right = right + 1;
      n--;
    } else {
      *out = *left;
      left = left + 1;
      m--;
    }
    out = out + 1;
  }
  copy(out, left, m);
  copy(out + m, right, n);
}

void sort(A(int) a, int n, A(int) spare) {
  if (n < 2) return;
  int half = n / 2;
  sort(a, half, spare);
  sort(a + half, n - half, spare);
  merge(a, half, a + half, n - half, spare);
  copy(a, spare, n);
}

ARRAY(int, a, 800);
ARRAY(int, spare, 800);

int main(void) {
  int state = 9;
  A(int) p = a;
  for (int n = 800; n > 0; n--) {
    state = state * 69069 + 1;
    *p = state >> 8 & 65535;
    p = p + 1;
  }
  sort(a, 800, spare);
  int wrong = 0;
  int sum = 0;
  p = a + 1;
  for (int n = 799; n > 0; n--) {
    if (p[-1] > p[0]) wrong++;
    sum = sum * 3 + *p & 65535;
    p = p + 1;
  }
  print(wrong);
  putchar(' ');
  print(sum);
  putchar('\n');
  return 0;
}
