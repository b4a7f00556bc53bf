/* warned: never freed at 5 */
#include <stdlib.h>
static int work(int n)
{
    int *p = malloc(n * sizeof(int));
    p[0] = n;
    return p[0];
}
int main(void)
{
    return work(3);
}
