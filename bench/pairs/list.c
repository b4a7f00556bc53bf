/* Lists in a pool: each turn makes one of 100 nodes, turns it round, and adds up its values; then all nodes are given back at once. */
#include "machine.h"
#include "checked.h"

struct Node {
  int value;
  P(struct Node) next;
};

ARRAY(struct Node, pool, 100);
int used;

void print(int number) {
  if (number > 9) print(number / 10);
  putchar('0' + number % 10);
}

P(struct Node) made(int length) {
  P(struct Node) list = 0;
  while (length > 0) {
    P(struct Node) node = &pool[used++];
    node->value = length;
    node->next = list;
    list = node;
    length--;
  }
  return list;
}

P(struct Node) reversed(P(struct Node) list) {
  P(struct Node) done = 0;
  while (list) {
    P(struct Node) rest = list->next;
    list->next = done;
    done = list;
    list = rest;
  }
  return done;
}

/* Each value by its place, so that the order counts. */
int sum(P(struct Node) list) {
  int total = 0;
  int place = 0;
  while (list) {
    place++;
    total += place * list->value;
    list = list->next;
  }
  return total;
}

int main(void) {
  int total = 0;
  for (int turn = 0; turn < 100; turn++) {
    used = 0;
    total += sum(reversed(made(100)));
  }
  print(total);
  putchar('\n');
  return 0;
}
