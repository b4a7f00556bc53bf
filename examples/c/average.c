/* Reads whole numbers and prints their average with two places. */
#include <stdio.h>

int main(void)
{
    int number, sum = 0, count = 0;

    while (scanf("%d", &number) == 1) {
        sum += number;
        count++;
    }
    if (count == 0) {
        puts("There are no numbers.");
        return 1;
    }
    printf("%d numbers, on average %d.%02d\n", count, sum / count, sum % count * 100 / count);
    return 0;
}
