/* Long numbers as arrays of digits to the base 10,000: the product of all numbers up to 120, and the sum of two such. */
#include "machine.h"
#include "checked.h"

void print(int number) {
  if (number > 9) print(number / 10);
  putchar('0' + number % 10);
}

struct Long {
  A(int) digits;
  int count;
};

ARRAY(struct Long, pool, 2);
ARRAY(int, digits_of_one, 60);
ARRAY(int, digits_of_other, 60);

void set(P(struct Long) it, int value) {
  it->digits[0] = value;
  it->count = 1;
}

void multiply(P(struct Long) it, int by) {
  int carry = 0;
  for (int i = 0; i < it->count; i++) {
    int product = it->digits[i] * by + carry;
    it->digits[i] = product % 10000;
    carry = product / 10000;
  }
  if (carry > 0) it->digits[it->count++] = carry;
}

void add(P(struct Long) it, P(struct Long) other) {
  int carry = 0;
  for (int i = 0; i < other->count || carry > 0; i++) {
    if (i == it->count) {
      it->digits[i] = 0;
      it->count++;
    }
    int sum = it->digits[i] + carry;
    if (i < other->count) sum += other->digits[i];
    if (sum >= 10000) {
      it->digits[i] = sum - 10000;
      carry = 1;
    } else {
      it->digits[i] = sum;
      carry = 0;
    }
  }
}

int main(void) {
  P(struct Long) product = &pool[0];
  P(struct Long) sum = &pool[1];
  product->digits = digits_of_one;
  sum->digits = digits_of_other;
  set(product, 1);
  set(sum, 0);
  for (int number = 1; number <= 120; number++) {
    multiply(product, number);
    add(sum, product);
  }
  for (int i = sum->count - 1; i >= 0; i--) print(sum->digits[i]);
  putchar('\n');
  return 0;
}
