/* A table of lists by a hash: numbers with how often each was seen. */
#include "machine.h"
#include "checked.h"

void print(int number) {
  if (number > 9) print(number / 10);
  putchar('0' + number % 10);
}

struct Entry {
  int key;
  int count;
  P(struct Entry) next;
};

ARRAY(struct Entry, pool, 250);
ARRAY(P(struct Entry), table, 64);
static int used;

int hash(int key) {
  key = key ^ key >> 7;
  key = key * 31 & 1048575;
  return (key ^ key >> 5) & 63;
}

P(struct Entry) find(int key) {
  for (P(struct Entry) at = table[hash(key)]; at != 0; at = at->next)
    if (at->key == key) return at;
  return 0;
}

void see(int key) {
  P(struct Entry) entry = find(key);
  if (entry == 0) {
    entry = &pool[used++];
    entry->key = key;
    entry->count = 0;
    entry->next = table[hash(key)];
    table[hash(key)] = entry;
  }
  entry->count++;
}

int main(void) {
  int state = 1;
  for (int turn = 0; turn < 4000; turn++) {
    state = state * 1103515245 + 12345;
    see((state >> 16 & 32767) % 250);
  }
  int sum = 0;
  for (int key = 0; key < 250; key++) {
    P(struct Entry) entry = find(key);
    if (entry != 0) sum = sum * 3 + entry->count & 65535;
  }
  print(sum);
  putchar('\n');
  return 0;
}
