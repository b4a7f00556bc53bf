/* Arrays that are gone through from one end to the other, each with its length beside it. */
#include "machine.h"
#include "checked.h"

void print(int number) {
  if (number > 9) print(number / 10);
  putchar('0' + number % 10);
}

int sum(A(int) a, int n) {
  int all = 0;
  for (int i = 0; i < n; i++) all += a[i];
  return all;
}

int greatest(A(int) a, int n) {
  int best = a[0];
  for (int i = 1; i < n; i++)
    if (a[i] > best) best = a[i];
  return best;
}

int count(A(int) a, int n, int wanted) {
  int found = 0;
  for (int i = 0; i < n; i++)
    if (a[i] == wanted) found++;
  return found;
}

/* The first place of a number, or -1. */
int index_of(A(int) a, int n, int wanted) {
  for (int i = 0; i < n; i++)
    if (a[i] == wanted) return i;
  return -1;
}

int rises(A(int) a, int n) {
  int times = 0;
  for (int i = 1; i < n; i++)
    if (a[i - 1] < a[i]) times++;
  return times;
}

void add(A(int) to, int room, A(int) from, int n) {
  for (int i = 0; i < room && i < n; i++) to[i] += from[i];
}

void reverse(A(int) a, int n) {
  for (int i = 0, j = n - 1; i < j; i++, j--) {
    int kept = a[i];
    a[i] = a[j];
    a[j] = kept;
  }
}

ARRAY(int, a, 400);
ARRAY(int, b, 300);

int main(void) {
  for (int i = 0; i < 400; i++) a[i] = i * 791 % 1009;
  for (int i = 0; i < 300; i++) b[i] = i * i % 97;
  int check = 0;
  for (int turn = 0; turn < 15; turn++) {
    check += sum(a, 400) % 1000 + greatest(b, 300) + count(b, 300, turn) + rises(a, 400);
    check += index_of(a, 400, 500 + turn) + index_of(b, 300, 16 * turn % 97);
    add(b, 300, a, 400);
    reverse(a, 400);
  }
  print(check);
  putchar(' ');
  print(sum(b, 300));
  putchar('\n');
  return 0;
}
