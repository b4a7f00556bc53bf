#include <stdio.h>
#include <string.h>
union u { int a; float f; struct { int x, y; } p; };
struct s { int k; union { struct { int q, r; }; int unused; }; struct { char c[4]; } in; } g = { 1, { { 2, 3 } }, { "ab" } };
struct __attribute__((packed)) pk { char a; int b; };
struct al { int a; } __attribute__((aligned(16)));
union u v = { .p = { 4, 5 } }, w;
int main(void) {
  struct s h = { .k = 4, .q = 7, .r = 8 };
  struct pk z; struct al y; z.b = 3; y.a = 4;
  w = v;
  union u *q = &w; q->p.x++;
  printf("%d %d %d %s %d %d %d %d %d\n", g.k, g.q, g.r, g.in.c, h.q + h.r, w.p.x, w.p.y, z.b + y.a, (int)sizeof(union u));
  memset(&w, 0, sizeof w);
  return w.p.x + h.k;
}
