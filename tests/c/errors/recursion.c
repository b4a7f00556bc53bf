/* ends: no room for this call at 2 */
static int down(int n) { return down(n + 1) + 1; }
int main(void)
{
    return down(0);
}
