/* What gcc evaluates first, where C leaves it open, and what C does not leave open. */
#include <stdio.h>
#include <stdlib.h>
static int n, a[4], cells[3] = { 2, 0, 0 };
static int next(void) { return ++n; }
static int mark(int bit) { cells[0] |= bit; return 1; }
static int leave(int i) { if (i == 4) { printf("end %d\n", n); exit(a[3]); } return i * i; }
int main(void)
{
    unsigned i;
    cells[0] |= mark(128);
    printf("%d\n", cells[0]);
    printf("%d %d %d\n", next(), next(), next());
    n = 10;
    n += next() > 10 ? 100 : 200;
    printf("%d %d\n", n, (n = 5, n + 1) * (n > 4 && n++ < 6 ? n : -n));
    for (i = 0; ; i++)
        a[i] = leave(i);
}
