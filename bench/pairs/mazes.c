/* The way out of a maze of 30 by 30 cells, found by a queue of cells that goes round in an array. */
#include "machine.h"
#include "checked.h"

void print(int number) {
  if (number > 9) print(number / 10);
  putchar('0' + number % 10);
}

ARRAY(int, wall, 900);
ARRAY(int, distance, 900);
ARRAY(int, queue, 128);
int head;
int tail;

void enqueue(int cell) {
  queue[tail] = cell;
  tail = (tail + 1) % 128;
}

int dequeue(void) {
  int cell = queue[head];
  head = (head + 1) % 128;
  return cell;
}

void visit(int row, int column, int steps) {
  if (row < 0 || row >= 30 || column < 0 || column >= 30) return;
  int cell = row * 30 + column;
  if (wall[cell] || distance[cell] >= 0) return;
  distance[cell] = steps;
  enqueue(cell);
}

/* How many cells are reached from one. */
int flood(int start) {
  for (int i = 0; i < 900; i++) distance[i] = -1;
  head = 0;
  tail = 0;
  distance[start] = 0;
  enqueue(start);
  int count = 0;
  while (head != tail) {
    int cell = dequeue();
    int row = cell / 30;
    int column = cell % 30;
    int steps = distance[cell] + 1;
    count++;
    visit(row - 1, column, steps);
    visit(row, column + 1, steps);
    visit(row + 1, column, steps);
    visit(row, column - 1, steps);
  }
  return count;
}

int main(void) {
  int state = 77;
  for (int i = 0; i < 900; i++) {
    state = state * 1103515245 + 12345;
    if ((state >> 16 & 7) < 2) wall[i] = 1;
  }
  wall[0] = 0;
  int reached = 0;
  int far = 0;
  for (int turn = 0; turn < 5; turn++) {
    reached += flood(0);
    far += distance[899] + distance[450];
    wall[turn * 61 + 31] = 1;
  }
  print(reached);
  putchar(' ');
  print(far + 100);
  putchar('\n');
  return 0;
}
