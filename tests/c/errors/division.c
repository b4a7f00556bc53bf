/* ends: Div_zero at 4 */
static int ratio(int a, int b)
{
    return a / b;
}
int main(void)
{
    return ratio(3, 0);
}
