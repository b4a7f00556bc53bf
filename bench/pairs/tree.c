/* A binary search tree of 500 numbers from a generator: it is made, its height is taken, and it is looked up in for all numbers below
   1,024. */
#include "machine.h"
#include "checked.h"

struct Tree {
  int value;
  P(struct Tree) smaller;
  P(struct Tree) larger;
};

ARRAY(struct Tree, pool, 500);
int used;

void print(int number) {
  if (number > 9) print(number / 10);
  putchar('0' + number % 10);
}

P(struct Tree) leaf(int value) {
  P(struct Tree) tree = &pool[used++];
  tree->value = value;
  tree->smaller = 0;
  tree->larger = 0;
  return tree;
}

/* The tree with one number more; one that is there already changes nothing. */
P(struct Tree) inserted(P(struct Tree) tree, int value) {
  if (!tree) return leaf(value);
  if (value < tree->value) tree->smaller = inserted(tree->smaller, value);
  else if (value > tree->value) tree->larger = inserted(tree->larger, value);
  return tree;
}

int height(P(struct Tree) tree) {
  if (!tree) return 0;
  int left = height(tree->smaller);
  int right = height(tree->larger);
  if (left < right) return right + 1;
  return left + 1;
}

int has(P(struct Tree) tree, int value) {
  while (tree) {
    if (value == tree->value) return 1;
    if (value < tree->value) tree = tree->smaller;
    else tree = tree->larger;
  }
  return 0;
}

int main(void) {
  P(struct Tree) tree = 0;
  int state = 1;
  for (int turn = 0; turn < 500; turn++) {
    state = state * 1103515245 + 12345;
    tree = inserted(tree, state >> 16 & 1023);
  }
  int found = 0;
  for (int value = 0; value < 1024; value++) found += has(tree, value);
  print(height(tree));
  putchar(' ');
  print(found);
  putchar('\n');
  return 0;
}
