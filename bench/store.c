/* The calls that the images of store.py make of a store, over malloc and free: it prints the microseconds of each kind, at each
   number of pages in use. */
#include <stdio.h>
#include <stdlib.h>
#include <string.h>
#include <time.h>

enum { CALLS = 2000000, PAGE = 4096, BLOCK = 64, IN_REGION = 64 };

static void *volatile kept; /* so that no call is taken out */

static double now(void) {
    struct timespec at;
    clock_gettime(CLOCK_MONOTONIC, &at);
    return at.tv_sec * 1e6 + at.tv_nsec / 1e3;
}

static void make_and_free(int count, size_t size) {
    for (int i = 0; i < count; i++) {
        kept = malloc(size);
        free(kept);
    }
}

static void make_regions(void) {
    void *blocks[IN_REGION];
    for (int i = 0; i < CALLS / IN_REGION; i++) {
        for (int j = 0; j < IN_REGION; j++) kept = blocks[j] = malloc(BLOCK);
        for (int j = 0; j < IN_REGION; j++) free(blocks[j]);
    }
}

int main(void) {
    static const char *kinds[] = {"free", "close", "make"};
    static const int in_use[] = {1, 1000, 60000};
    for (int kind = 0; kind < 3; kind++)
        for (int n = 0; n < 3; n++) {
            void **pages = calloc(in_use[n], sizeof *pages);
            for (int i = 0; i < in_use[n]; i++) memset(pages[i] = malloc(PAGE), 0, PAGE);
            double start = now();
            if (kind == 0) make_and_free(CALLS, BLOCK);
            if (kind == 1) make_and_free(CALLS, PAGE);
            if (kind == 2) make_regions();
            printf("%s %d %.0f\n", kinds[kind], in_use[n], now() - start);
            for (int i = 0; i < in_use[n]; i++) free(pages[i]);
            free(pages);
        }
    return 0;
}
