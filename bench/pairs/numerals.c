/* Numbers written as Roman numerals into a line of chars, and read again. */
#include "machine.h"
#include "checked.h"

void print(int number) {
  if (number > 9) print(number / 10);
  putchar('0' + number % 10);
}

ARRAY(int, values, 13);
ARRAY(unsigned char, letters, 26);
ARRAY(unsigned char, line, 20);

int write_one(A(unsigned char) line, int at, int which) {
  line[at++] = letters[2 * which];
  if (letters[2 * which + 1] != ' ') line[at++] = letters[2 * which + 1];
  return at;
}

int write(A(unsigned char) line, int number) {
  int at = 0;
  for (int which = 0; which < 13; which++)
    while (number >= values[which]) {
      at = write_one(line, at, which);
      number -= values[which];
    }
  return at;
}

int value_of(int letter) {
  if (letter == 'M') return 1000;
  if (letter == 'D') return 500;
  if (letter == 'C') return 100;
  if (letter == 'L') return 50;
  if (letter == 'X') return 10;
  if (letter == 'V') return 5;
  return 1;
}

int read(A(unsigned char) line, int length) {
  int sum = 0;
  for (int at = 0; at < length; at++) {
    int value = value_of(line[at]);
    if (at + 1 < length && value_of(line[at + 1]) > value) sum -= value;
    else sum += value;
  }
  return sum;
}

void set(int which, int value, int first, int second) {
  values[which] = value;
  letters[2 * which] = first;
  letters[2 * which + 1] = second;
}

int main(void) {
  set(0, 1000, 'M', ' '); set(1, 900, 'C', 'M'); set(2, 500, 'D', ' '); set(3, 400, 'C', 'D'); set(4, 100, 'C', ' ');
  set(5, 90, 'X', 'C'); set(6, 50, 'L', ' '); set(7, 40, 'X', 'L'); set(8, 10, 'X', ' '); set(9, 9, 'I', 'X');
  set(10, 5, 'V', ' '); set(11, 4, 'I', 'V'); set(12, 1, 'I', ' ');
  int sum = 0;
  for (int number = 1; number < 600; number++) {
    int length = write(line, number * 6);
    if (read(line, length) == number * 6) sum += length;
  }
  print(sum);
  putchar('\n');
  return 0;
}
