/* Lines of fields between commas, some of them in quotes: the sum of each column. */
#include "machine.h"
#include "checked.h"

void print(int number) {
  if (number > 9) print(number / 10);
  putchar('0' + number % 10);
}

ARRAY(unsigned char, text, 200);
ARRAY(int, sums, 6);

int digits(A(unsigned char) text, int at, int number) {
  if (number > 9) at = digits(text, at, number / 10);
  text[at] = '0' + number % 10;
  return at + 1;
}

int write_line(A(unsigned char) text, int turn) {
  int at = 0;
  for (int column = 0; column < 6; column++) {
    if (column > 0) text[at++] = ',';
    if (column % 3 == 1) {
      text[at] = '"';
      at = digits(text, at + 1, turn * column);
      text[at++] = '"';
    } else at = digits(text, at, turn + column);
  }
  text[at] = '\n';
  return at + 1;
}

void read_line(A(unsigned char) text, int length, A(int) sums) {
  int column = 0;
  int number = 0;
  int quoted = 0;
  for (int at = 0; at < length; at++) {
    int byte = text[at];
    if (byte == '"') quoted = !quoted;
    else if (byte >= '0' && byte <= '9') number = number * 10 + byte - '0';
    else if (!quoted && (byte == ',' || byte == '\n')) {
      sums[column++] += number;
      number = 0;
    }
  }
}

int main(void) {
  for (int turn = 0; turn < 400; turn++) {
    int length = write_line(text, turn);
    read_line(text, length, sums);
  }
  for (int column = 0; column < 6; column++) {
    print(sums[column]);
    putchar('\n');
  }
  return 0;
}
