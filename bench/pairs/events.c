/* A queue of events by time, as a heap of pointers to structs: each that comes out makes one that is later. */
#include "machine.h"
#include "checked.h"

void print(int number) {
  if (number > 9) print(number / 10);
  putchar('0' + number % 10);
}

struct Event {
  int time;
  int kind;
};

ARRAY(struct Event, pool, 50);
ARRAY(P(struct Event), heap, 64);
static int count;

int is_before(P(struct Event) left, P(struct Event) right) {
  return left->time < right->time || left->time == right->time && left->kind < right->kind;
}

void put(P(struct Event) event) {
  int place = count++;
  while (place > 0 && is_before(event, heap[(place - 1) / 2])) {
    heap[place] = heap[(place - 1) / 2];
    place = (place - 1) / 2;
  }
  heap[place] = event;
}

P(struct Event) take(void) {
  P(struct Event) first = heap[0];
  P(struct Event) last = heap[--count];
  int place = 0;
  while (2 * place + 1 < count) {
    int below = 2 * place + 1;
    if (below + 1 < count && is_before(heap[below + 1], heap[below])) below++;
    if (!is_before(heap[below], last)) break;
    heap[place] = heap[below];
    place = below;
  }
  heap[place] = last;
  return first;
}

int main(void) {
  for (int kind = 0; kind < 50; kind++) {
    P(struct Event) event = &pool[kind];
    event->time = kind * 37 % 101;
    event->kind = kind;
    put(event);
  }
  int sum = 0;
  for (int turn = 0; turn < 2000; turn++) {
    P(struct Event) event = take();
    sum = sum * 5 + event->kind & 65535;
    event->time += 1 + event->kind * 13 % 47;
    put(event);
  }
  print(sum);
  putchar('\n');
  return 0;
}
