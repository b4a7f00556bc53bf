#include <stdio.h>
int main() {
  int n, i, total = 0; char name[20], c;
  if (scanf("%d", &n) != 1) { printf("no number\n"); return 2; }
  for (i = 0; i < n; i++) {
    int v;
    scanf("%s %d", name, &v);
    printf("%s=%d\n", name, v);
    total += v;
  }
  scanf(" %c", &c);
  printf("%c %d %d\n", c, total, scanf("%d", &n));
  return total;
}
