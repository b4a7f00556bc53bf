/* A stack in a struct, by functions that push and pop: sums in reverse notation, from a text that is made first. */
#include "machine.h"
#include "checked.h"

void print(int number) {
  if (number > 9) print(number / 10);
  putchar('0' + number % 10);
}

struct Stack {
  A(int) cells;
  int count;
};

ARRAY(struct Stack, stacks, 1);
ARRAY(int, pool, 100);
ARRAY(unsigned char, text, 301);

void push(P(struct Stack) stack, int value) {
  stack->cells[stack->count++] = value;
}

int pop(P(struct Stack) stack) {
  return stack->cells[--stack->count];
}

int is_empty(P(struct Stack) stack) {
  return stack->count == 0;
}

int evaluate(P(struct Stack) stack, A(unsigned char) text, int length) {
  for (int at = 0; at < length; at++) {
    int byte = text[at];
    if (byte >= '0' && byte <= '9') push(stack, byte - '0');
    else {
      int right = pop(stack);
      int left = pop(stack);
      if (byte == '+') push(stack, left + right & 65535);
      else if (byte == '*') push(stack, left * right & 65535);
      else push(stack, left - right & 65535);
    }
  }
  int result = pop(stack);
  while (!is_empty(stack)) result += pop(stack);
  return result;
}

int main(void) {
  P(struct Stack) stack = &stacks[0];
  stack->cells = pool;
  for (int i = 0; i < 301; i++) text[i] = '0';
  for (int i = 1; i < 301; i += 2) {
    text[i] = '1' + i % 9;
    text[i + 1] = i % 6 == 2 ? '+' : i % 6 == 4 ? '*' : '-';
    if (i + 2 > 299) break;
  }
  int sum = 0;
  for (int turn = 0; turn < 100; turn++) {
    sum += evaluate(stack, text, 301);
    text[1] = '0' + turn % 10;
  }
  print(sum);
  putchar('\n');
  return 0;
}
