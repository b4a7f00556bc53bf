/* A table of operators by pointers to functions, and a parser that calls itself. */
#include <stdio.h>
#include <stdlib.h>

typedef int (*operation)(int, int);

static int add(int a, int b) { return a + b; }
static int sub(int a, int b) { return a - b; }
static int mul(int a, int b) { return a * b; }
static int quo(int a, int b) { if (b == 0) { printf("division by zero\n"); exit(3); } return a / b; }

struct entry { char sign; int level; operation apply; };

static const struct entry table[] = { {'+', 1, add}, {'-', 1, sub}, {'*', 2, mul}, {'/', 2, &quo} };

static int next;

static void advance(void) { do next = getchar(); while (next == ' '); }

static int expression(int level);

static int primary(void)
{
    int value = 0;
    if (next == '(') {
        advance();
        value = expression(1);
        if (next == ')') advance();
        return value;
    }
    if (next == '-') { advance(); return -primary(); }
    while (next >= '0' && next <= '9') { value = value * 10 + next - '0'; advance(); }
    return value;
}

static const struct entry *lookup(int c)
{
    unsigned i;
    for (i = 0; i < sizeof table / sizeof table[0]; i++)
        if (table[i].sign == c) return &table[i];
    return 0;
}

static int expression(int level)
{
    int left = primary();
    const struct entry *e;
    while ((e = lookup(next)) != 0 && e->level >= level) {
        advance();
        left = e->apply(left, expression(e->level + 1));
    }
    return left;
}

int main(void)
{
    advance();
    while (next != EOF) {
        printf("%d\n", expression(1));
        while (next == '\n') advance();
    }
    return 0;
}
