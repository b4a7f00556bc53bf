#include <stdio.h>
#include <stdint.h>
typedef unsigned long long u64; typedef long long i64;
struct s { int k; u64 v; i64 w; } gs = { 1, 0x123456789abcdefULL, -5 };
i64 g = -1, h; u64 u = 18446744073709551615ULL; static i64 least = (-9223372036854775807LL - 1);
static u64 mul(u64 a, u64 b) { return a * b; }
static i64 add(i64 a, int b, i64 c) { return a + b - c; }
static u64 fact(int n) { return n < 2 ? 1 : n * fact(n - 1); }
static i64 pick(int c, i64 a, i64 b) { return c ? a : b; }
int main(void) {
  i64 a = 5000000000LL, b = -3; u64 x = 0xfedcba9876543210ULL; int i = 7; unsigned v = 4000000000u; short sh = -9;
  struct s t = gs;
  printf("%lld %lld %llu %llx %llX %llo\n", a, b, x, x, x, x);
  printf("%lld %lld %lld %lld %lld\n", a + b, a - b, a * b, a / b, a % b);
  printf("%llu %llu %llu\n", x / 1000, x % 1000, x * x);
  for (i = 0; i < 64; i += 9) printf("%lld %llx %llx\n", a << i, x >> i, (u64)((i64)x >> i));
  printf("%d %d %d %d %d %d\n", a < b, a > b, a <= a, a >= b, a == b, a != b);
  printf("%d %d %d %d\n", x < 5, x > a, u > 0, (i64)u < 0);
  printf("%lld %lld %lld %lld\n", (i64)i, (i64)v, (i64)sh, (i64)(int)v);
  printf("%d %u %d %d %d\n", (int)a, (unsigned)x, (short)x, (char)x, (_Bool)(x & 0));
  a += 10; a -= i; a *= 3; a /= 7; a %= 100000; a <<= 20; a >>= 3; a ^= 0xff00ff00ffLL; a |= 1; a &= ~0x10LL;
  printf("%lld\n", a); a++; ++a; printf("%lld\n", a++); printf("%lld\n", a--);
  i = 10; i += 5000000000LL; printf("%d\n", i); i = 100; i /= -3LL; printf("%d\n", i); v /= 3LL; printf("%u\n", v); v -= 10000000000LL; printf("%u\n", v);
  printf("%lld %lld %llu %lld\n", g, h, u, least); h = g = least; printf("%lld %lld\n", g, h);
  printf("%d %llu %lld\n", t.k, t.v, t.w); t.v++; t.w -= 10; gs = t; printf("%llu %lld\n", gs.v, gs.w);
  printf("%llu %lld %llu\n", mul(123456789012ULL, 98765432109ULL), add(a, 3, b), fact(20));
  printf("%lld %lld %lld %lld\n", pick(1, a, b), pick(0, a, b), i ? a : 4, -b); printf("%lld %llu\n", ~a, -x);
  printf("[%20lld][%-20lld][%020lld][%+lld][% lld][%#llx][%.15lld][%5.3lld]\n", a, b, b, a, a, x, b, b);
  if (a) puts("yes"); if (!h) puts("no"); while (a > 1000000) a /= 1000; printf("%lld %d\n", a, a && b);
  int arr[4] = { 1, 2, 3, 4 }; i64 one = 1; printf("%d %d\n", arr[one], *(arr + one + 1));
  printf("%lld %lld %lld %lld\n", (i64)-7 / 2, (i64)-7 % 2, (i64)7 / -2, (i64)7 % -2);
  printf("%llu %llu\n", u / 3, u % 10); uint64_t q = 1; for (i = 0; i < 70; i++) q = q * 6364136223846793005ULL + 1442695040888963407ULL; printf("%llu\n", q);
  printf("%d %d\n", (int)sizeof(a), (int)sizeof(struct s)); return (int)(q >> 60);
}
