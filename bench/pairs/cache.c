/* The 40 answers that were asked for last are kept, in a list with both directions and in a table by key; the oldest makes room. */
#include "machine.h"
#include "checked.h"

void print(int number) {
  if (number > 9) print(number / 10);
  putchar('0' + number % 10);
}

struct Entry {
  int key;
  int value;
  P(struct Entry) newer;
  P(struct Entry) older;
  P(struct Entry) next;
};

ARRAY(struct Entry, pool, 40);
ARRAY(P(struct Entry), table, 16);
P(struct Entry) newest;
P(struct Entry) oldest;
int kept;

P(struct Entry) find(int key) {
  P(struct Entry) e = table[key & 15];
  while (e != 0 && e->key != key) e = e->next;
  return e;
}

void take_out(P(struct Entry) e) {
  if (e->newer != 0) e->newer->older = e->older;
  else newest = e->older;
  if (e->older != 0) e->older->newer = e->newer;
  else oldest = e->newer;
}

void put_first(P(struct Entry) e) {
  e->newer = 0;
  e->older = newest;
  if (newest != 0) newest->newer = e;
  else oldest = e;
  newest = e;
}

void forget(P(struct Entry) e) {
  int place = e->key & 15;
  if (table[place] == e) {
    table[place] = e->next;
    return;
  }
  P(struct Entry) before = table[place];
  while (before->next != e) before = before->next;
  before->next = e->next;
}

/* An answer that takes its time. */
int answer(int key) {
  int result = key;
  for (int i = 0; i < 6; i++) result = (result * 31 + 7) % 10007;
  return result;
}

int misses = 0;

int ask(int key) {
  P(struct Entry) e = find(key);
  if (e != 0) {
    take_out(e);
    put_first(e);
    return e->value;
  }
  misses++;
  if (kept < 40) {
    e = &pool[kept++];
  } else {
    e = oldest;
    take_out(e);
    forget(e);
  }
  e->key = key;
  e->value = answer(key);
  e->next = table[key & 15];
  table[key & 15] = e;
  put_first(e);
  return e->value;
}

int main(void) {
  int state = 2;
  int sum = 0;
  for (int turn = 0; turn < 3000; turn++) {
    state = state * 1103515245 + 12345;
    int key = state >> 16 & 63;
    if ((state >> 23 & 3) == 0) key += 100;
    sum += ask(key);
  }
  print(misses);
  putchar(' ');
  print(sum);
  putchar('\n');
  return 0;
}
