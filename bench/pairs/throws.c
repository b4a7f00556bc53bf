/* Jumps out of nested calls, up to nine of them, by setjmp and longjmp. */
#include "machine.h"

jump_place place;
int found;

void print(int number) {
  if (number > 9) print(number / 10);
  putchar('0' + number % 10);
}

int search(int depth, int number) {
  if (depth == 0) {
    if (number % 2 == 0) {
      found = number;
      longjmp(place, 1);
    }
    return number;
  }
  return search(depth - 1, number + depth) + 1;
}

int result_of(int turn) {
  if (setjmp(place)) return found * 2;
  return search(turn % 10, turn);
}

int main(void) {
  int sum = 0;
  for (int turn = 0; turn < 3000; turn++) sum += result_of(turn);
  print(sum);
  putchar('\n');
  return 0;
}
