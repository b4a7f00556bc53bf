/* ends: Array_bounds at 6 */
#include <stdio.h>
int main(void)
{
    char s[3] = "abc";
    puts(s);
    return 0;
}
