/* A tree of numbers, smaller ones on the left: each is put in, looked for, and met in order. */
#include "machine.h"
#include "checked.h"

void print(int number) {
  if (number > 9) print(number / 10);
  putchar('0' + number % 10);
}

struct Node {
  int key;
  P(struct Node) left;
  P(struct Node) right;
};

ARRAY(struct Node, pool, 400);
static int used;
static P(struct Node) root;

void insert(int key) {
  P(struct Node) node = &pool[used++];
  node->key = key;
  node->left = 0;
  node->right = 0;
  if (root == 0) {
    root = node;
    return;
  }
  P(struct Node) at = root;
  while (at->key != key) {
    if (key < at->key) {
      if (at->left == 0) at->left = node;
      at = at->left;
    } else {
      if (at->right == 0) at->right = node;
      at = at->right;
    }
  }
}

int depth_of(int key) {
  P(struct Node) at = root;
  int depth = 0;
  while (at != 0 && at->key != key) {
    if (key < at->key) at = at->left;
    else at = at->right;
    depth++;
  }
  if (at == 0) return 0;
  return depth;
}

int sum_of(P(struct Node) at, int place) {
  if (at == 0) return 0;
  return sum_of(at->left, place + 1) + place * at->key + sum_of(at->right, place + 1);
}

int main(void) {
  int state = 5;
  for (int turn = 0; turn < 400; turn++) {
    state = (state * 75 + 74) % 65537;
    insert(state);
  }
  int sum = sum_of(root, 1) & 1048575;
  state = 5;
  for (int turn = 0; turn < 800; turn++) {
    state = (state * 75 + 74) % 65537;
    sum += depth_of(state);
  }
  print(sum);
  putchar('\n');
  return 0;
}
