// Conway's game of life on a torus, C99 style
#include <stdbool.h>
#include <stdint.h>
#include <stdio.h>

enum { HEIGHT = 8, WIDTH = 12 };

static uint8_t board[HEIGHT][WIDTH], later[HEIGHT][WIDTH];

static bool alive(int y, int x)
{
    return board[(y + HEIGHT) % HEIGHT][(x + WIDTH) % WIDTH] != 0;
}

static void turn(void)
{
    for (int y = 0; y < HEIGHT; ++y) {
        for (int x = 0; x < WIDTH; ++x) {
            int neighbours = 0;
            for (int dy = -1; dy <= 1; ++dy)
                for (int dx = -1; dx <= 1; ++dx)
                    if ((dy || dx) && alive(y + dy, x + dx))
                        ++neighbours;
            later[y][x] = neighbours == 3 || (alive(y, x) && neighbours == 2);
        }
    }
    for (int y = 0; y < HEIGHT; ++y)
        for (int x = 0; x < WIDTH; ++x)
            board[y][x] = later[y][x];
}

int main(void)
{
    const int glider[5][2] = { {0, 1}, {1, 2}, {2, 0}, {2, 1}, {2, 2} };
    uint32_t sum = 2166136261u;
    for (int i = 0; i < 5; ++i)
        board[glider[i][0]][glider[i][1]] = 1;
    for (int t = 0; t < 10; ++t)
        turn();
    for (int y = 0; y < HEIGHT; ++y) {
        for (int x = 0; x < WIDTH; ++x) {
            putchar(board[y][x] ? '#' : '.');
            sum = (sum ^ board[y][x]) * 16777619u;
        }
        putchar('\n');
    }
    printf("%u\n", (unsigned)sum);
    return 0;
}
