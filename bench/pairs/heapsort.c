/* A heap of 500 numbers in an array, each at most the one at half its place: all are put in, and taken out again, greatest first. The
   array and the count are globals. */
#include "machine.h"
#include "checked.h"

ARRAY(int, heap, 501);
int count;
int state = 1;

void print(int number) {
  if (number > 9) print(number / 10);
  putchar('0' + number % 10);
}

int random(void) {
  state = state * 1103515245 + 12345;
  return state >> 16 & 32767;
}

void put(int number) {
  count++;
  int place = count;
  while (place > 1 && heap[place / 2] < number) {
    heap[place] = heap[place / 2];
    place = place / 2;
  }
  heap[place] = number;
}

int take(void) {
  int greatest = heap[1];
  int number = heap[count];
  count--;
  int place = 1;
  while (2 * place <= count) {
    int below = 2 * place;
    if (below < count && heap[below + 1] > heap[below]) below++;
    if (heap[below] <= number) break;
    heap[place] = heap[below];
    place = below;
  }
  heap[place] = number;
  return greatest;
}

int main(void) {
  int turn = 0;
  while (turn < 500) {
    put(random());
    turn++;
  }
  int sum = 0;
  while (turn > 0) {
    sum = sum * 3 + take() & 65535;
    turn--;
  }
  print(sum);
  putchar('\n');
  return 0;
}
