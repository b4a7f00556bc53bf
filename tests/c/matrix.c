#include <stdio.h>
#include <string.h>
#define N 3

typedef struct { int rows, cols; int cell[N][N]; } Matrix;

static Matrix multiply(Matrix a, Matrix b)
{
    Matrix r;
    int i, j, k;
    memset(&r, 0, sizeof r);
    r.rows = a.rows; r.cols = b.cols;
    for (i = 0; i < a.rows; i++)
        for (j = 0; j < b.cols; j++)
            for (k = 0; k < a.cols; k++)
                r.cell[i][j] += a.cell[i][k] * b.cell[k][j];
    return r;
}

static void show(const Matrix *m)
{
    for (int i = 0; i < m->rows; i++) {
        for (int j = 0; j < m->cols; j++)
            printf("%s%4d", j ? " " : "", m->cell[i][j]);
        printf("\n");
    }
}

static int trace(int a[][N], int n)
{
    int t = 0;
    while (n--) t += a[n][n];
    return t;
}

int grid[4][5] = { {1, 2, 3}, {[4] = 9}, [3] = {7} };

int main(void)
{
    Matrix one = { N, N, { {1, 0, 0}, {0, 1, 0}, {0, 0, 1} } };
    Matrix m = { N, N, { {1, 2, 3}, {4, 5, 6}, {7, 8, 9} } };
    Matrix p;
    int sum = 0, i, j;

    p = multiply(m, one);
    p = multiply(p, m);
    show(&p);
    printf("%d %d\n", trace(p.cell, N), trace(m.cell, 2));
    for (i = 0; i < 4; i++)
        for (j = 0; j < 5; j++)
            sum = sum * 3 + grid[i][j];
    printf("%d\n", sum);
    one = m;
    one.cell[1][1] = -1;
    printf("%d %d\n", m.cell[1][1], one.cell[1][1]);
    return m.cell[2][2];
}
