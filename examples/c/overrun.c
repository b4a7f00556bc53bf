/* Goes past the end of an array: the run ends there, at its line. */
#include <stdio.h>

static int total(const int *values, int count)
{
    int sum = 0;

    for (int i = 0; i <= count; i++)
        sum += values[i];
    return sum;
}

int main(void)
{
    int values[3] = {3, 4, 5};

    printf("%d\n", total(values, 3));
    return 0;
}
