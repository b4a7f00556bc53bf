#include <stdio.h>
#include <string.h>

/* Pointers in variables of the translation's own: to variables of inner blocks, and to what parameters point to. */
static int f(int *p, int *q) { return *p + *q; }
static int g(void) { return 1; }
static int pick(int *p, int k)
{
    int own[2] = {5, 6}, r = own[1];
    if (k) { int x = 1; r += f(k > 1 ? p : &x, own); }
    if (k) { int y = 2; r += f((k++, &y), (r++, p)); }
    if (k) { int z, w = 3; memset(&z, 0, sizeof z); memcpy(&w, &k, sizeof w); r += z + w; }
    while (k-- > 0) { char c[2] = "a"; char d = 'd'; printf("%d %c %s\n", g(), *&d, c); }
    return r;
}
static char *join(char *p, const char *q)
{
    char own[4] = "+";
    p = strcat(strcpy(p, q), own);
    p = (p[0] == 'a' ? p : p + 1) + 1;
    return p;
}
int main(void)
{
    int z = 4; char t[10];
    printf("%d %d %d\n", pick(&z, 0), pick(&z, 1), pick(&z, 2));
    puts(join(t, "abc"));
    return 0;
}
