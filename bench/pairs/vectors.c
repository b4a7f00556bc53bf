/* Bodies that move in a plane, each a struct behind a pointer in an array: they meet the walls and come back. */
#include "machine.h"
#include "checked.h"

void print(int number) {
  if (number > 9) print(number / 10);
  putchar('0' + number % 10);
}

struct Vector {
  int x;
  int y;
};

struct Body {
  P(struct Vector) place;
  P(struct Vector) speed;
};

ARRAY(struct Vector, pool, 60);
ARRAY(struct Body, cells, 30);
ARRAY(P(struct Body), bodies, 30);

void add(P(struct Vector) to, P(struct Vector) by) {
  to->x += by->x;
  to->y += by->y;
}

void turn_back(P(struct Vector) place, P(struct Vector) speed) {
  if (place->x < 0 || place->x > 1000) speed->x = -speed->x;
  if (place->y < 0 || place->y > 1000) speed->y = -speed->y;
}

void step(A(P(struct Body)) bodies, int count) {
  for (int i = 0; i < count; i++) {
    P(struct Body) body = bodies[i];
    if (body != 0) {
      add(body->place, body->speed);
      turn_back(body->place, body->speed);
    }
  }
}

int square(int number) {
  return number * number;
}

int distance(P(struct Vector) left, P(struct Vector) right) {
  return square(left->x - right->x) + square(left->y - right->y);
}

int main(void) {
  for (int i = 0; i < 30; i++) {
    P(struct Body) body = &cells[i];
    body->place = &pool[2 * i];
    body->speed = &pool[2 * i + 1];
    body->place->x = i * 33;
    body->place->y = i * 77 % 1000;
    body->speed->x = i * 5 % 13 + 1;
    body->speed->y = i * 3 % 11 + 1;
    bodies[i] = body;
  }
  int near = 0;
  for (int turn = 0; turn < 100; turn++) {
    step(bodies, 30);
    for (int i = 1; i < 30; i++)
      if (distance(bodies[i - 1]->place, bodies[i]->place) < 40000) near++;
  }
  print(near);
  putchar('\n');
  return 0;
}
