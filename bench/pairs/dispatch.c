/* A pen that a sequence of commands moves over a plane: what a command means is found by asking for each in turn. */
#include "machine.h"

void print(int number) {
  if (number > 9) print(number / 10);
  putchar('0' + number % 10);
}

int x = 0;
int y = 0;
int heading = 0;
int is_down = 1;
int scale = 1;
int drawn = 0;
int marked_x = 0;
int marked_y = 0;

void move(int length) {
  length *= scale;
  if (is_down) drawn += length;
  if (heading == 0) y += length;
  else if (heading == 1) x += length;
  else if (heading == 2) y -= length;
  else x -= length;
}

int apply(int command, int amount) {
  if (command == 'f') {
    move(amount);
  } else if (command == 'b') {
    move(-amount);
    if (is_down) drawn += 2 * amount * scale;
  } else if (command == 'l') {
    heading = heading + 3 & 3;
  } else if (command == 'r') {
    heading = heading + 1 & 3;
  } else if (command == 'u') {
    is_down = 0;
  } else if (command == 'd') {
    is_down = 1;
  } else if (command == 'h') {
    x = 0;
    y = 0;
  } else if (command == 'm') {
    marked_x = x;
    marked_y = y;
  } else if (command == 'g') {
    x = marked_x;
    y = marked_y;
  } else if (command == 's') {
    scale = amount % 4 + 1;
  } else if (command == 't') {
    heading ^= 2;
  } else if (command == 'x') {
    x = -x;
  } else if (command == 'y') {
    y = -y;
  } else {
    return 0;
  }
  return 1;
}

int main(void) {
  int state = 5;
  int good = 0;
  for (int turn = 0; turn < 6000; turn++) {
    state = state * 1103515245 + 12345;
    good += apply('a' + (state >> 16 & 31) % 26, state >> 22 & 7);
  }
  print(good);
  putchar(' ');
  print(drawn);
  putchar(' ');
  print(x & 1048575);
  putchar(' ');
  print(y & 1048575);
  putchar('\n');
  return 0;
}
