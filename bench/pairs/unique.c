/* A stack of nodes from a list of free ones: each turn makes 60 of them, and frees them one by one. */
#include "machine.h"
#include "checked.h"

struct Node {
  int value;
  P(struct Node) below;
};

ARRAY(struct Node, pool, 60);
int used;
P(struct Node) unused;
P(struct Node) top;

void print(int number) {
  if (number > 9) print(number / 10);
  putchar('0' + number % 10);
}

P(struct Node) allocate(void) {
  P(struct Node) node = unused;
  if (!node) return &pool[used++];
  unused = node->below;
  return node;
}

void release(P(struct Node) node) {
  node->below = unused;
  unused = node;
}

void push(int value) {
  P(struct Node) node = allocate();
  node->value = value;
  node->below = top;
  top = node;
}

int pop(void) {
  P(struct Node) node = top;
  top = node->below;
  int value = node->value;
  release(node);
  return value;
}

int main(void) {
  int sum = 0;
  for (int turn = 0; turn < 50; turn++) {
    int count = 0;
    while (count < 60) {
      push(turn + count);
      count++;
    }
    while (count > 0) {
      sum += count * pop();
      count--;
    }
  }
  print(sum);
  putchar('\n');
  return 0;
}
