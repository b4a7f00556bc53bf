/* refused: never given a value at 6 */
#include <stdio.h>
int main(void)
{
    int total, i;
    for (i = 0; i < 3; i++) printf("%d\n", total);
    return 0;
}
