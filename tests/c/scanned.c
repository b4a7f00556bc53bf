#include <stdio.h>
#include <stdlib.h>
#include <string.h>
#include <time.h>
static void t(const char *s, int base) { char *e; long v = strtol(s, &e, base); printf("%ld '%s' ", v, e); unsigned long u = strtoul(s, &e, base); printf("%lu %d\n", u, (int)(e - s)); }
int main(void) {
  t("12abc", 10); t("  -0x1fg", 0); t("0x", 16); t("099", 0); t("99999999999", 10); t("-99999999999", 10); t("2147483648", 10); t("-2147483648", 10);
  t("4294967295z", 10); t("4294967296", 10); t("zz", 36); t("", 10); t("+7 8", 10); t("-4294967295", 0); t("100000000", 16); t("ffffffff", 16);
  int a = 0, b = 0, c = 0, k; char w[20], x = 'q'; char y[4] = "...";
  k = sscanf("  12 0x1f 077", "%d %i %i", &a, &b, &c); printf("%d %d %d %d\n", k, a, b, c);
  k = sscanf("0x1F rest", "%x %s", &a, w); printf("%d %d %s\n", k, a, w);
  k = sscanf("7,8;9", "%d,%d;%d", &a, &b, &c); printf("%d %d %d %d\n", k, a, b, c);
  k = sscanf("7-8", "%d,%d", &a, &b); printf("%d %d\n", k, a);
  k = sscanf("abcd", "%c%3c", &x, y); printf("%d %c %s\n", k, x, y);
  k = sscanf("", "%d", &a); printf("%d\n", k);
  k = sscanf("hello 5", "%2s%s%d", w, w + 10, &a); printf("%d %s %s %d\n", k, w, w + 10, a);
  int arr[2] = {1, 1}, i = 0; sscanf("5", "%d", &arr[i++]); printf("%d %d %d\n", arr[0], arr[1], i);
  unsigned u; k = sscanf("-1", "%u", &u); printf("%d %u\n", k, u);
  char line[30]; strcpy(line, "3 4"); sscanf(line, "%d%d", &a, &b); printf("%d\n", a * 10 + b);
  return 0;
}
