/* The sieve of Eratosthenes up to 1,000, ten times in one array. */
#include "machine.h"
#include "checked.h"

void print(int number) {
  if (number > 9) print(number / 10);
  putchar('0' + number % 10);
}

int primes_in(A(int) is_prime) {
  for (int number = 2; number < 1000; number++) is_prime[number] = 1;
  int count = 0;
  for (int number = 2; number < 1000; number++)
    if (is_prime[number]) {
      count++;
      for (int multiple = number + number; multiple < 1000; multiple += number) is_prime[multiple] = 0;
    }
  return count;
}

ARRAY(int, array, 1000);

int main(void) {
  for (int turn = 0; turn < 10; turn++) {
    print(primes_in(array));
    putchar('\n');
  }
  return 0;
}
