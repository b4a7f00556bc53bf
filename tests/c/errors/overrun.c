/* ends: Array_bounds at 5 */
int main(void)
{
    int a[4], i, s = 0;
    for (i = 0; i < 5; i++) a[i] = i;
    for (i = 0; i < 4; i++) s += a[i];
    return s;
}
