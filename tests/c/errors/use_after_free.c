/* ends: Null_Exception at 8 */
#include <stdlib.h>
int main(void)
{
    int *p = malloc(4 * sizeof(int));
    p[0] = 1;
    free(p);
    return p[0];
}
