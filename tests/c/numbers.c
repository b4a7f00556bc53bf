/* C's own conversions: what is signed, what is not, and what is narrow. */
#include <stdio.h>
#include <limits.h>

static unsigned int rotate(unsigned int x, int n) { return x << n | x >> (32 - n); }

int main(void)
{
    unsigned int u = 3000000000u;
    int i = -1;
    short s = (short)70000;
    unsigned short us = 65535;
    signed char sc = (signed char)200;
    unsigned char uc = 200;
    char c = 'z';

    printf("%u %u %u %u\n", u / 7, u % 7, u >> 4, u / 2500000000u);
    printf("%d %d %d\n", i < (int)1, (unsigned)i > 1u, -1 > sizeof(int));
    printf("%d %d %d %d %d\n", s, us, sc, uc, c);
    us++; uc += 100; sc--; s <<= 4;
    printf("%d %d %d %d\n", us, uc, sc, s);
    printf("%x %X %#x %o %08x\n", u, 48879u, 255u, 8u, rotate(0x12345678u, 8));
    printf("%d %d %u\n", INT_MAX, INT_MIN, UINT_MAX);
    printf("%d %d %d\n", -7 / 2, -7 % 2, -8 >> 1);
    printf("%d %d\n", (unsigned char)-1 == 255, (char)-1 == 255);
    printf("[%5d] [%-5d] [%05d] [%+d] [% d] [%.3d] [%5.2d]\n", 42, 42, 42, 42, 42, 7, 7);
    printf("[%s] [%8s] [%-8s] [%.2s] [%c] [%3c] %%\n", "text", "text", "text", "text", 'x', 'y');
    u = 0;
    u--;
    printf("%u %d\n", u, u == 0xffffffff);
    printf("%d\n", us ? 10 : 20);
    return (int)(rotate(1, 9) >> 4);
}
