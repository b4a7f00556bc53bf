#include <stdio.h>
#include <stdlib.h>
typedef long long i64; typedef unsigned long long u64;
struct node { i64 key; struct node *next; char tag; u64 count; };
struct node pool[3];
static i64 calls;
static i64 next(void) { static i64 n = 4294967290LL; calls++; return n += 3; }
static int both(i64 a, u64 b) { return (a < 0) + 2 * (b > 0xffffffffULL); }
static i64 choose(int c) { if (c > 2) return next(); return c ? -next() : calls; }
static void show(const char *s, i64 v, u64 w, int z) { printf("%s %lld %llu %d\n", s, v, w, z); }
static struct node *make(i64 k) { struct node *p = malloc(sizeof *p); p->key = k; p->next = 0; p->count = k * 2; p->tag = 't'; return p; }
int main(void) {
  i64 a = 1, b = 0, total = 0; int i; u64 m;
  if (a && next() > 4294967290LL && (b = next())) printf("b %lld\n", b);
  if (b < 0 || next() != 0) puts("or");
  while (calls < 8 && (a = next()) > 0) total += a;
  printf("%lld %lld\n", total, calls);
  do { total -= 1000000007; } while (total > 0);
  printf("%lld\n", total);
  for (a = 5; a > 0; a--) b = b * 31 + a;
  show("x", next(), 1ULL << 40, both(-1, 1ULL << 33));
  show("y", choose(0), (u64)choose(1), (int)choose(3));
  pool[1].key = 77; pool[2] = pool[1]; pool[2].count = ~0ULL; pool[0].next = &pool[2];
  pool[0].next->key *= -2; pool[i = 1].key += 5;
  printf("%lld %lld %llu %d\n", pool[2].key, pool[1].key, pool[0].next->count, i);
  struct node *p = make(9000000000LL); p->next = make(-1);
  printf("%lld %llu %lld %c\n", p->key, p->count, p->next->key, p->tag);
  m = (a = 3, a + 4000000000u); printf("%llu\n", m);
  m = i ? 0xffffffffu : 1LL; printf("%llu\n", m); m = -1; printf("%llu %d\n", m, m == -1);
  a = 0x100000000LL; printf("%d %d %d\n", !a, !!a, a ? 1 : 2); if (!(int)a) puts("low 0");
  printf("%d\n", (a >> 32) == 1 && (a & 0xffffffff) == 0);
  i = a > 5 ? 3 : 4; printf("%d\n", i); a = -a; printf("%lld %llu\n", a / 3, (u64)a / 3); unsigned u = 5; a = u - 10; printf("%lld\n", a); a = (i64)u - 10; printf("%lld\n", a);
  a = i * 1000000000; printf("%lld\n", a); a = i * 1000000000LL; printf("%lld\n", a);
  char c = 200; a = c; printf("%lld\n", a); a = (unsigned char)c; printf("%lld\n", a); c = a << 3; printf("%d\n", c);
  switch ((int)(a & 3)) { case 0: puts("zero"); break; default: puts("other"); }
  unsigned short s = 65535; s += 2LL; printf("%d\n", s); i = -5; i <<= 2LL; printf("%d\n", i); i >>= 1LL; printf("%d\n", i);
  a = 7; a <<= i = 3; printf("%lld\n", a); a = (b = 5) + (total = 6); printf("%lld\n", a);
  printf("%d %d\n", (int)sizeof(long long), (int)sizeof(a + 1)); int n = printf("%lld\n", a); printf("%d\n", n); return both(-5, 0);
}
