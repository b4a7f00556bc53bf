/* Numbers are put into a list in order, and every third is taken out again. */
#include "machine.h"
#include "checked.h"

void print(int number) {
  if (number > 9) print(number / 10);
  putchar('0' + number % 10);
}

struct Node {
  int value;
  P(struct Node) next;
};

ARRAY(struct Node, pool, 300);
static int used;
static P(struct Node) list;

void insert(int value) {
  P(struct Node) before = 0;
  P(struct Node) at = list;
  while (at != 0 && at->value < value) {
    before = at;
    at = at->next;
  }
  P(struct Node) node = &pool[used++];
  node->value = value;
  node->next = at;
  if (before == 0) list = node;
  else before->next = node;
}

void take_out(void) {
  P(struct Node) at = list;
  while (at != 0 && at->next != 0) {
    P(struct Node) second = at->next;
    if (second->next != 0) second->next = second->next->next;
    at = second->next;
  }
}

int main(void) {
  int state = 7;
  for (int turn = 0; turn < 300; turn++) {
    state = (state * 75 + 74) % 65537;
    insert(state);
    if (turn % 50 == 49) take_out();
  }
  int sum = 0;
  int place = 1;
  for (P(struct Node) at = list; at != 0; at = at->next) sum += place++ * at->value;
  print(sum);
  putchar('\n');
  return 0;
}
