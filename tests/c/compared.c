#include <stdio.h>

/* Pointers that are compared: with a whole array, with a row of one, and as a condition that needs statements. */

static char first[] = "arg";
static char second[] = "arg";
static int grid[8][3][3];
static char *name;

static char *same(char *text)
{
  if (text != first) printf("another\n");
  return text;
}

static void both(char *a, char *b) { same(a); same(b); }

static void old(one, other) char *one, *other;
{
  return both(same(one), same(other));
}

static int rows(int x[3][3], int y[3][3])
{
  static int at;
  int found = x == grid[at + 2] && y != grid[at + 2];
  at++;
  return found;
}

static char *get(int n) { return n ? "x" : 0; }

int main(void)
{
  char *p = 0;
  int n = 2, i, good = 0;
  old(first, first);
  old(first, second);
  for (i = 0; i < 6; i++) good += rows(grid[i + 2], grid[i]);
  printf("%d\n", good);
  if (n > 1 && (p = get(n--)) && n) puts(p);
  if (name || (name = get(0)) || n == 7) puts("no");
  (void)(name || (name = get(1)));
  puts(name);
  n = n == 1 && (p = get(n--));
  printf("%d\n", n);
  return p == NULL;
}
