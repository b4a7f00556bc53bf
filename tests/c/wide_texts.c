#include <stdio.h>
#include <stdlib.h>
static void t(const char *s, int base) { char *e; long long v = strtoll(s, &e, base); printf("%lld '%s' ", v, e); printf("%llu\n", strtoull(s, NULL, base)); }
int main(void) {
  t("12abc", 10); t("  -0x1fg", 0); t("0x", 16); t("099", 0); t("9223372036854775807", 10); t("9223372036854775808", 10); t("-9223372036854775808", 10); t("-9223372036854775809", 10);
  t("18446744073709551615", 10); t("18446744073709551616x", 10); t("zzzzzzzzzzzz", 36); t("zzzzzzzzzzzzz", 36); t("zzzzzzzzzzzzzz", 36); t("", 10); t("99999999999999999999999", 10); t("ffffffffffffffff", 16); t("10000000000000000", 16); t("4294967296", 10); t("-1", 10);
  printf("%lld %lld %lld\n", llabs(-5000000000LL), llabs(3), atoll("-123456789012 x")); return 0;
}
