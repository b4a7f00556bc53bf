/* Calls that may fail: they give 0, or 1 where something is wrong, and each caller asks. */
#include "machine.h"
#include "checked.h"

int refused_number;

void print(int number) {
  if (number > 9) print(number / 10);
  putchar('0' + number % 10);
}

int checked(int number, P(int) result) {
  if (number % 7 == 0) {
    refused_number = number;
    return 1;
  }
  *result = number + 1;
  return 0;
}

int both(int number, P(int) result) {
  int first, second;
  if (checked(number, &first)) return 1;
  if (checked(number + 1, &second)) return 1;
  *result = first + second;
  return 0;
}

int main(void) {
  int sum = 0;
  int refused = 0;
  for (int number = 1; number < 4000; number++) {
    int result;
    if (both(number, &result)) refused += refused_number % 5;
    else sum += result;
  }
  print(sum);
  putchar(' ');
  print(refused);
  putchar('\n');
  return 0;
}
