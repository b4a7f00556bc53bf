#include <assert.h>
#include <stdio.h>
#include <stdlib.h>

struct stack { int *data; size_t size, room; };

static void push(struct stack *s, int v)
{
    if (s->size == s->room) {
        s->room = s->room ? 2 * s->room : 2;
        s->data = realloc(s->data, s->room * sizeof *s->data);
        assert(s->data != NULL);
    }
    s->data[s->size++] = v;
}

static int pop(struct stack *s)
{
    assert(s->size > 0);
    return s->data[--s->size];
}

struct range { short low, high; unsigned char step; };

static struct range widen(struct range r, int by)
{
    r.low -= by;
    r.high += by;
    return r;
}

int main(void)
{
    struct stack s = { NULL, 0, 0 };
    struct range r = { .low = 1, .high = 5, .step = 2 }, rs[2];
    int i, *seen = calloc(10, sizeof *seen);

    for (i = 0; i < 9; i++) push(&s, i * i);
    while (s.size > 1) { int v = pop(&s) % 10; seen[v]++; printf("%d ", v); }
    printf("\n");
    rs[0] = widen(r, 3);
    rs[1] = widen(rs[0], 40000);
    for (i = 0; i < 2; i++) printf("%d..%d/%d ", rs[i].low, rs[i].high, rs[i].step);
    printf("%d\n", seen[9] + seen[6]);
    free(seen);
    i = pop(&s) == 0 ? 0 : 1;
    free(s.data);
    return i;
}
