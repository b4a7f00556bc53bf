/* Counts the lines, words and bytes of its input, as the command wc does. */
#include "machine.h"

void print(int number) {
  if (number > 9) print(number / 10);
  putchar('0' + number % 10);
}

int is_space(int byte) {
  return byte == ' ' || byte >= 9 && byte <= 13;
}

int main(void) {
  int lines = 0;
  int words = 0;
  int bytes = 0;
  int in_word = 0;
  int byte = getchar();
  while (byte != -1) {
    bytes++;
    if (byte == '\n') lines++;
    if (is_space(byte)) in_word = 0;
    else if (!in_word) {
      in_word = 1;
      words++;
    }
    byte = getchar();
  }
  print(lines);
  putchar(' ');
  print(words);
  putchar(' ');
  print(bytes);
  putchar('\n');
  return 0;
}
