/* A machine with a stack runs a program of its own: it adds up the squares of the numbers from 1,500 down to 1, less what is above 16
   bits. An instruction is two ints, an operation and its operand: 0 ends, 1 pushes a constant, 2 loads a variable, 3 stores one, 4 adds,
   5 subtracts, 6 multiplies, 7 has bits in common, 8 jumps where the top is not 0. */
#include "machine.h"
#include "checked.h"

void print(int number) {
  if (number > 9) print(number / 10);
  putchar('0' + number % 10);
}

/* Writes an instruction, and gives the place behind it. */
int put(A(int) code, int at, int operation, int operand) {
  code[at] = operation;
  code[at + 1] = operand;
  return at + 2;
}

void assemble(A(int) code) {
  int at = 0;
  at = put(code, at, 1, 1500);
  at = put(code, at, 3, 0);
  int start = at;
  at = put(code, at, 2, 1);
  at = put(code, at, 2, 0);
  at = put(code, at, 2, 0);
  at = put(code, at, 6, 0);
  at = put(code, at, 4, 0);
  at = put(code, at, 1, 65535);
  at = put(code, at, 7, 0);
  at = put(code, at, 3, 1);
  at = put(code, at, 2, 0);
  at = put(code, at, 1, 1);
  at = put(code, at, 5, 0);
  at = put(code, at, 3, 0);
  at = put(code, at, 2, 0);
  at = put(code, at, 8, start);
  put(code, at, 0, 0);
}

void run(A(int) code, A(int) stack, A(int) variables) {
  int at = 0;
  int top = 0;
  while (code[at] != 0) {
    int operation = code[at];
    int operand = code[at + 1];
    at += 2;
    if (operation == 1) {
      stack[top] = operand;
      top++;
    } else if (operation == 2) {
      stack[top] = variables[operand];
      top++;
    } else if (operation == 3) {
      top--;
      variables[operand] = stack[top];
    } else if (operation == 8) {
      top--;
      if (stack[top] != 0) at = operand;
    } else {
      top--;
      int right = stack[top];
      int left = stack[top - 1];
      if (operation == 4) left += right;
      else if (operation == 5) left -= right;
      else if (operation == 6) left *= right;
      else left &= right;
      stack[top - 1] = left;
    }
  }
}

ARRAY(int, code, 64);
ARRAY(int, stack, 16);
ARRAY(int, variables, 2);

int main(void) {
  assemble(code);
  run(code, stack, variables);
  print(variables[1]);
  putchar('\n');
  return 0;
}
