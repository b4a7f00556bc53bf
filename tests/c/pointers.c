#include <stdio.h>
#include <stdlib.h>

static void reverse(char *s)
{
    char *e = s, t;
    while (*e) e++;
    e--;
    while (s < e) { t = *s; *s++ = *e; *e-- = t; }
}

static int length(const char *s)
{
    const char *p = s;
    while (*p) ++p;
    return p - s;
}

static void quicksort(int *low, int *high)
{
    int *l = low, *h = high, pivot;
    if (low >= high) return;
    pivot = *low;
    while (l < h) {
        while (l < h && *h >= pivot) h--;
        *l = *h;
        while (l < h && *l <= pivot) l++;
        *h = *l;
    }
    *l = pivot;
    if (l > low) quicksort(low, l - 1);
    if (l < high) quicksort(l + 1, high);
}

static void divide(int a, int b, int *q, int *r) { *q = a / b; *r = a % b; }

static int *largest(int *a, int n)
{
    int *best = a;
    for (int i = 1; i < n; i++)
        if (a[i] > *best) best = &a[i];
    return best;
}

static int counter(void) { static int n = 10; return n++; }

int main(void)
{
    char text[] = "stressed";
    int data[] = { 5, 2, 9, 1, 5, 6, -3, 0 };
    int n = sizeof data / sizeof *data, i, q, r;
    int *copy = malloc(n * sizeof(int)), *p, *end;
    char *names[] = { "alpha", "beta", "gamma", NULL }, **np;

    for (i = 0; i < n; i++) copy[i] = data[i];
    reverse(text);
    printf("%s %d\n", text, length(text));
    quicksort(data, data + n - 1);
    for (p = data, end = data + n; p != end; p++) printf("%d ", *p);
    printf("\n");
    divide(17, 5, &q, &r);
    printf("%d %d %d\n", q, r, (int)(largest(copy, n) - copy));
    for (np = names; *np; np++) printf("%s%c", *np, np[1] ? ' ' : '\n');
    counter(); counter();
    printf("%d\n", counter());
    free(copy);
    return *largest(data, n);
}
