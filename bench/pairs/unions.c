/* Sets that grow together: the bridges between 600 islands are built in the order of their lengths, where they join two sets. */
#include "machine.h"
#include "checked.h"

void print(int number) {
  if (number > 9) print(number / 10);
  putchar('0' + number % 10);
}

ARRAY(int, parent, 600);
ARRAY(int, size, 600);
ARRAY(int, from, 900);
ARRAY(int, to, 900);
ARRAY(int, length, 900);

int find(int x) {
  while (parent[x] != x) {
    parent[x] = parent[parent[x]];
    x = parent[x];
  }
  return x;
}

int join(int a, int b) {
  a = find(a);
  b = find(b);
  if (a == b) return 0;
  if (size[a] < size[b]) {
    int kept = a;
    a = b;
    b = kept;
  }
  parent[b] = a;
  size[a] += size[b];
  return 1;
}

int main(void) {
  for (int i = 0; i < 600; i++) {
    parent[i] = i;
    size[i] = 1;
  }
  int state = 11;
  for (int i = 0; i < 900; i++) {
    state = state * 1103515245 + 12345;
    from[i] = (state >> 16 & 32767) % 600;
    state = state * 1103515245 + 12345;
    to[i] = (state >> 16 & 32767) % 600;
    length[i] = (from[i] - to[i]) * (from[i] - to[i]) % 20;
  }
  int sets = 600;
  int all = 0;
  for (int limit = 0; limit < 20; limit++)
    for (int i = 0; i < 900; i++)
      if (length[i] == limit && join(from[i], to[i])) {
        all += limit;
        sets--;
      }
  int same = 0;
  for (int i = 0; i < 600; i++)
    if (find(i) == find(599 - i)) same++;
  print(sets);
  putchar(' ');
  print(all);
  putchar(' ');
  print(same);
  putchar(' ');
  print(size[find(0)]);
  putchar('\n');
  return 0;
}
