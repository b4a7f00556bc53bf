#include <stdio.h>

static int search(int want)
{
    int table[4][4], i, j, steps = 0;

    for (i = 0; i < 4; i++)
        for (j = 0; j < 4; j++)
            table[i][j] = i * j;
    for (i = 0; i < 4; i++) {
        for (j = 0; j < 4; j++) {
            steps++;
            if (table[i][j] == want)
                goto found;
            if (steps > 100)
                goto fail;
        }
    }
fail:
    printf("no %d after %d\n", want, steps);
    return -1;
found:
    printf("%d at %d,%d\n", want, i, j);
    return steps;
}

static int retry(void)
{
    int tries = 0;
again:
    tries++;
    if (tries < 3)
        goto again;
    switch (tries) {
    case 1:
        return 1;
    case 3: {
        int k;
        for (k = 0; k < 10; k++) {
            if (k == 2)
                continue;
            if (k == 5)
                goto out;
            printf("%d", k);
        }
    }
    default:
        printf("never");
    }
out:
    printf(".\n");
    return tries;
}

int main(void)
{
    int a = search(6), b = search(5), c = retry();
    int x = (a > 3, b < 0) ? c++ : c--;
    printf("%d %d %d %d\n", a, b, c, x);
    return a && (b || c) && !(a == b);
}
