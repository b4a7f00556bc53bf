/* refused: freed twice at 8 */
#include <stdlib.h>
int main(void)
{
    int *p = malloc(4 * sizeof(int));
    p[0] = 1;
    free(p);
    free(p);
    return 0;
}
