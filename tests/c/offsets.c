#include <stdio.h>
#include <stddef.h>
#include <stdlib.h>
#include <inttypes.h>
struct s { char a; int b; struct { short c; char d; }; char e[3]; };
void *keep;
int main(void) { void *local = malloc(42); keep = malloc(10); if (!local) return 1; free(local);
 printf("%d %d %d %d %d %" PRIiPTR "\n", (int)offsetof(struct s, b), (int)offsetof(struct s, d), (int)offsetof(struct s, e), (int)sizeof(struct s), keep != NULL, (intptr_t)3); return 0; }
