#include <stdio.h>
#include <stdlib.h>
int main(void) { int x = 3; printf("before\n"); fflush(stdout); if (x * x != 10) abort(); return 0; }
