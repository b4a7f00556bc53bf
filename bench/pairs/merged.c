/* Numbers in a list, sorted by merging: it is cut in two, both parts are sorted, and then they are one again. */
#include "machine.h"
#include "checked.h"

void print(int number) {
  if (number > 9) print(number / 10);
  putchar('0' + number % 10);
}

struct Node {
  int value;
  P(struct Node) next;
};

ARRAY(struct Node, pool, 1200);
static int used;

P(struct Node) made(int value, P(struct Node) next) {
  P(struct Node) node = &pool[used++];
  node->value = value;
  node->next = next;
  return node;
}

P(struct Node) half(P(struct Node) list) {
  P(struct Node) slow = list;
  P(struct Node) fast = list->next;
  while (fast != 0 && fast->next != 0) {
    slow = slow->next;
    fast = fast->next->next;
  }
  P(struct Node) rest = slow->next;
  slow->next = 0;
  return rest;
}

P(struct Node) merge(P(struct Node) left, P(struct Node) right) {
  P(struct Node) head = made(0, 0);
  P(struct Node) last = head;
  while (left != 0 && right != 0) {
    if (left->value <= right->value) {
      last->next = left;
      left = left->next;
    } else {
      last->next = right;
      right = right->next;
    }
    last = last->next;
  }
  if (left != 0) last->next = left;
  else last->next = right;
  return head->next;
}

P(struct Node) sorted(P(struct Node) list) {
  if (list == 0 || list->next == 0) return list;
  P(struct Node) rest = half(list);
  P(struct Node) left = sorted(list);
  return merge(left, sorted(rest));
}

int main(void) {
  P(struct Node) list = 0;
  int state = 3;
  for (int count = 0; count < 600; count++) {
    state = (state * 75 + 74) % 65537;
    list = made(state, list);
  }
  list = sorted(list);
  int sum = 0;
  for (int place = 1; list != 0; place++) {
    sum = sum + place * list->value & 16777215;
    list = list->next;
  }
  print(sum);
  putchar('\n');
  return 0;
}
