/* Formulas as trees, each in a pool that is emptied after it: one is made, its derivative is, both are simplified, and they are worked out
   for some values of x. */
#include "machine.h"
#include "checked.h"

struct Node {
  int kind;
  int value;
  P(struct Node) left;
  P(struct Node) right;
};

ARRAY(struct Node, pool, 2000);
int used;
int state = 3;

void print(int number) {
  if (number > 9) print(number / 10);
  putchar('0' + number % 10);
}

int random(int below) {
  state = state * 1103515245 + 12345;
  return (state >> 16 & 32767) % below;
}

P(struct Node) node_of(int kind, int value, P(struct Node) left, P(struct Node) right) {
  P(struct Node) node = &pool[used++];
  node->kind = kind;
  node->value = value;
  node->left = left;
  node->right = right;
  return node;
}

P(struct Node) number(int value) {
  return node_of('n', value, 0, 0);
}

P(struct Node) both(int kind, P(struct Node) left, P(struct Node) right) {
  return node_of(kind, 0, left, right);
}

P(struct Node) made(int depth) {
  if (depth == 0) {
    if (random(2)) return node_of('x', 0, 0, 0);
    return number(random(10));
  }
  int kind = '+';
  int which = random(3);
  if (which == 1) kind = '-';
  if (which == 2) kind = '*';
  P(struct Node) left = made(depth - 1);
  return both(kind, left, made(depth - 1 - random(depth) / 2));
}

P(struct Node) derived(P(struct Node) node) {
  if (node->kind == 'n') return number(0);
  if (node->kind == 'x') return number(1);
  if (node->kind != '*') {
    P(struct Node) first = derived(node->left);
    return both(node->kind, first, derived(node->right));
  }
  P(struct Node) left = both('*', derived(node->left), node->right);
  return both('+', left, both('*', node->left, derived(node->right)));
}

int is_number(P(struct Node) node, int value) {
  return node->kind == 'n' && node->value == value;
}

P(struct Node) simple(P(struct Node) node) {
  if (node->kind == 'n' || node->kind == 'x') return node;
  P(struct Node) left = simple(node->left);
  P(struct Node) right = simple(node->right);
  if (node->kind == '*') {
    if (is_number(left, 0) || is_number(right, 0)) return number(0);
    if (is_number(left, 1)) return right;
    if (is_number(right, 1)) return left;
  } else {
    if (is_number(right, 0)) return left;
    if (node->kind == '+' && is_number(left, 0)) return right;
  }
  return both(node->kind, left, right);
}

int count(P(struct Node) node) {
  if (!node) return 0;
  return 1 + count(node->left) + count(node->right);
}

int value_of(P(struct Node) node, int x) {
  if (node->kind == 'n') return node->value;
  if (node->kind == 'x') return x;
  int left = value_of(node->left, x);
  int right = value_of(node->right, x);
  if (node->kind == '+') return left + right;
  if (node->kind == '-') return left - right;
  return left * right;
}

int main(void) {
  int sum = 0;
  int nodes = 0;
  for (int turn = 0; turn < 25; turn++) {
    P(struct Node) formula = made(4);
    P(struct Node) slope = simple(derived(formula));
    nodes += count(formula) + count(slope);
    formula = simple(formula);
    for (int x = 0; x < 5; x++) sum = sum * 3 + value_of(formula, x) + value_of(slope, x) & 1048575;
    used = 0;
  }
  print(nodes);
  putchar(' ');
  print(sum);
  putchar('\n');
  return 0;
}
