/* Formats that only the run knows. */
#include <stdio.h>
static char first[] = "first: %d|%-6s|%05u|%c%%\n";
static const char *const table[] = { "%s is %d\n", "[%*d] [%.*s] [%x]\n", "plain\n", "%hd %hhu %hhd %+d\n" };
static int wrong(char *format, int a, const char *b) { return printf(format, a, b, 7u, 'z'); }
int main(void)
{
    int i = wrong(first, -3, "ab");
    printf(table[0], "life", 42);
    printf(table[1], 6, 42, 3, "abcdef", 255);
    printf(table[2]);
    printf(table[3], 70000, 300, 200, 5);
    { int x = 3, *p = &x; const char *f = i > 3 ? "%d " : "%u "; printf(f, p[0]); printf(f, *(&x + 0)); }
    printf("%d\n", i);
    return 0;
}
