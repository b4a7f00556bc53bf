/* ends: Array_bounds at 6 */
static int last(const int *a, int n)
{
    int i, best = a[0];
    for (i = 1; i <= n; i++)
        if (a[i] > best) best = a[i];
    return best;
}
int main(void)
{
    int a[3] = {1, 2, 3};
    return last(a, 3);
}
