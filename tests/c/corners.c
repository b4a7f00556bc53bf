#include <stdio.h>
#include <stdlib.h>
#include <string.h>
#include <ctype.h>
#include <stdbool.h>
#include <limits.h>
struct pt { int x, y; }; struct box { struct pt lo, hi; char name[8]; short tags[3]; };
struct bits { unsigned a : 3; int b : 4; unsigned c : 9; bool d : 1; };
static int count; static int tick(void) { return count++; }
static struct pt mk(int x, int y) { struct pt p; p.x = x; p.y = y; return p; }
static struct box grow(struct box b, int by) { b.lo.x -= by; b.hi.x += by; b.tags[1]++; return b; }
static int sum3(int a[][3], int n) { int s = 0, i, j; for (i = 0; i < n; i++) for (j = 0; j < 3; j++) s += a[i][j] * (i + 1); return s; }
static int apply(int (*f)(int, int), int a, int b) { return f(a, b); }
static int addf(int a, int b) { return a + b; } static int subf(int a, int b) { return a - b; }
int (*table[])(int, int) = { addf, subf, 0 };
static int new(int let) { int region = let * 2, open = 1; return region + open; }
static unsigned char uc; static signed char sc; static short sh; static unsigned short us; static bool bo; static unsigned un;
int main(void) {
  int a[6] = { 1, 2, 3 }, i = 0, j, *p = a, *q; char s[20], t[20] = "abc", *w; struct bits b = { 0 }; struct box bx = { { 1, 2 }, { 3, 4 }, "box", { 7 } }, by;
  a[i++] += 5; a[i++]++; a[tick()] <<= 2; a[tick() + tick()] -= 9; printf("%d %d %d %d %d %d %d\n", a[0], a[1], a[2], a[3], i, count, a[i] = 8);
  uc = 255; uc++; sc = 127; sc++; sh = 32767; sh += 2; us = 0; us--; bo = 5; bo++; printf("%d %d %d %d %d\n", uc, sc, sh, us, bo); bo--; printf("%d ", bo); bo = !bo; printf("%d\n", bo);
  printf("%d %d %d\n", uc++, uc, (b.a = 13)); b.b = 9; b.c += 600; b.d = 4; b.a--; printf("%d %d %d %d %d\n", b.a, b.b, b.c, b.d, b.b++);
  un = 1; printf("%d %d %d %u %u\n", un > -1, (int)un > -1, -1 < (unsigned char)1, un - 2, -7 / 2 + un); printf("%d %d %d %d\n", -7 / 2, -7 % 2, -7 >> 1, 7 % -2); printf("%u %u %d\n", (un - 8) / 3, (un - 8) % 10, (int)((un - 8) >> 28));
  printf("%d %d %d %d\n", *p++, *++p, ++*p, (*p)++); printf("%d %d %d\n", (int)(p - a), p[-1], *(a + 2)); q = &a[5]; printf("%d %d %d\n", p < q, p == a + 2, (int)(q - p));
  for (i = 0, j = 10; i < j; i += 3, j--) { switch (i) { case 0: continue; case 3: if (j == 9) break; default: printf("d%d ", j); case 6: printf("s%d ", i); continue; } printf("a%d ", i); } puts("");
  for (i = -2; i < 4; i++) switch (i) { default: printf("x"); case 1: printf("1"); break; case 2: printf("2"); case 3: printf("3"); } puts("");
  i = 5; do { if (i == 3) continue; printf("%d ", i); } while (--i); puts(""); again: if (i++ < 3) { printf("g%d ", i); goto again; } puts("");
  i = 3; j = i > 2 ? i < 4 ? 10 : 20 : i == 0 ? 30 : 40; printf("%d %d\n", j, (i = 4, i * 2)); if (tick() && tick() || tick()) printf("c%d\n", count); printf("%d\n", !tick() || (j = tick()) > 3 && j);
  by = grow(bx, 2); bx.hi = mk(8, 9); by.lo = bx.hi = by.hi; printf("%d %d %d %d %s %d %d %d\n", by.lo.x, by.hi.x, bx.hi.x, bx.lo.x, by.name, by.tags[0], by.tags[1], mk(4, 5).y); by = by; strcpy(by.name, "other"); printf("%s %s\n", bx.name, by.name);
  int m[2][3] = { { 1, 2 }, { 4, 5, 6 } }; printf("%d %d %d\n", sum3(m, 2), m[1][2], (int)(sizeof m / sizeof m[0])); printf("%d %d %d\n", apply(addf, 3, 4), apply(table[1], 3, 4), table[2] == 0); printf("%d\n", new(4));
  strncpy(s, "hello", 10); strncat(s, " world!!", 6); printf("[%s] %d [%.3s] [%8s] [%-8s] [%8.2s]\n", s, (int)strlen(s), s, t, t, s); memmove(s + 2, s, 6); puts(s); memmove(s, s + 1, 5); puts(s); memset(s, 'z', 3); puts(s);
  for (w = strtok(strcpy(s, "a,b;;c"), ",;"); w; w = strtok(NULL, ",;")) printf("<%s>", w); printf("%d %d %d\n", strcmp("a", "b") < 0, strncmp("abc", "abd", 2), memcmp("ab", "aa", 2) > 0);
  printf("[%5d][%-5d][%05d][%+d][%x][%#X][%o][%5c][%%][%i][%u][%hd][%hhd][%ld][%zu][%*d][%.*s][%.0d]\n", 42, 42, -42, 42, 255, 255, 8, 'c', 7, 3000000000u, (short)70000, (signed char)200, 123456L, sizeof(int), 4, 5, 2, "xyz", 0);
  printf("%d %d %d %d %d\n", '\x41', '\101', '\\', "a\0b"[2], (int)sizeof("ab" "cd")); printf("%d %d %d\n", isalpha('z') != 0, toupper('q'), isdigit('x')); printf("%d %d %d\n", INT_MAX, INT_MIN, UCHAR_MAX);
  char *names[] = { [2] = "two", [0] = "zero" }; printf("%s %d %s\n", names[0], names[1] == NULL, names[2]); p = malloc(2 * sizeof *p); p[0] = 1; p[1] = 2; p = realloc(p, 4 * sizeof *p); p[3] = p[0] + p[1]; printf("%d\n", p[3]); { int i = 99; { int i = 7; printf("%d ", i); } printf("%d\n", i); }
  unsigned char bytes[4] = { 0xff, 0x80, 1 }; char ch = bytes[0]; printf("%d %d %d %d\n", ch, bytes[1] << 1, (char)bytes[1], bytes[0] + bytes[2] == 256); sh = bytes[0] << 8 | bytes[1]; printf("%d %d\n", sh, (unsigned short)sh); i = 0x7fffffff; printf("%d %d\n", (short)i, (char)(i >> 4)); 
  printf("%d %d\n", sizeof(struct box), sizeof(struct pt[3])); int n = 3; n ^= n << 1; n = ~n & 0xff; printf("%d %d\n", n, -n); n = n > 5 && n < 300; printf("%d\n", n + !n); return a[3] & 0x7f;
}
