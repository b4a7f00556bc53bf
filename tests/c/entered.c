#include <stdio.h>
#include <stdlib.h>
static int kind(const char *p, int own)
{
  int n = 0, fraction = 0;
  for (; *p; p++) {
    if (*p == ' ') {
      if (own) continue;
      goto bad;
    }
    if (*p >= '0' && *p <= '9') continue;
    switch (*p) {
    case '.':
      if (fraction) goto bad;
      fraction = 1;
      break;
    case '-':
      if (!n) break;
      /* falls through */
    default:
bad:  printf("bad %c\n", *p);
      n++;
      break;
    }
  }
  return n;
}
static int list(int n)
{
  int k = 3;
  if (n == 0) {
    int m = 4;
    k = k + m;
error:
    printf("error %d\n", n);
    return k;
  }
  if (n == 1) goto error;
  for (k = 0; k < n; k++)
    if (k == 5) goto error;
  return -k;
}
static int game(int start)
{
  int turns = 0;
  if (start) {
    printf("computer\n");
    goto middle;
  }
  printf("user\n");
  for (;;) {
    turns++;
    printf("u%d\n", turns);
    if (turns % 2) continue;
middle: for (;;) {
      turns += 2;
      printf("c%d\n", turns);
      if (turns % 3) break;
    }
    if (turns > 9) return turns;
  }
}
static int into(int i)
{
  if (i < 5) goto in;
  while (i < 12) { i += 10; in: i++; }
  if (i > 3) { i--; } else { i += 100; if (i < 50) { there: i += 7; } }
  if (i == 5 || i == 4) goto there;
  do { i++; if (i == 6) goto last; i++; last: i--; } while (i < 20);
  return i;
}
static int which(int c, int n)
{
again:
  switch (c) {
  case 1: n += 2; if (n < 10) goto three; break;
  case 3: n *= 2; three: n += 3; c = 2; if (n < 40) goto again; break;
  case 2: c = 3; n++; goto again;
  case 4: if (n > 3) goto skip; n = 9; skip: n++; if (n < 12) goto skip; break;
  default: n--; other: n -= 2;
  }
  if (n == 7) goto other;
  return n;
}
int main(void)
{
  int i;
  printf("%d %d\n", kind("12.3.4 5-", 0), kind(" -1 2x3", 1));
  for (i = 0; i < 8; i++) printf("%d\n", list(i));
  printf("%d %d\n", game(0), game(1));
  for (i = -3; i < 14; i++) printf("%d ", into(i));
  for (i = 0; i < 5; i++) printf("%d %d;", which(i, i), which(i, 9));
  printf("\n");
  return 0;
}
