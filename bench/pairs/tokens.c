/* The tokens of a text: names, numbers, operators of one and two characters, and comments to the end of a line. */
#include "machine.h"
#include "checked.h"

void print(int number) {
  if (number > 9) print(number / 10);
  putchar('0' + number % 10);
}

ARRAY(unsigned char, text, 1000);
ARRAY(int, counts, 4);

int is_digit(int byte) {
  return byte >= '0' && byte <= '9';
}

int is_letter(int byte) {
  return byte >= 'a' && byte <= 'z' || byte >= 'A' && byte <= 'Z' || byte == '_';
}

int is_blank(int byte) {
  return byte == ' ' || byte == '\n' || byte == '\t';
}

int next(A(unsigned char) text, int at, int length, A(int) counts) {
  int byte = text[at];
  if (is_blank(byte)) {
    while (at < length && is_blank(text[at])) at++;
    return at;
  }
  if (is_letter(byte)) {
    counts[0]++;
    while (at < length && (is_letter(text[at]) || is_digit(text[at]))) at++;
    return at;
  }
  if (is_digit(byte)) {
    counts[1]++;
    while (at < length && is_digit(text[at])) at++;
    return at;
  }
  if (byte == '/' && at + 1 < length && text[at + 1] == '/') {
    counts[2]++;
    while (at < length && text[at] != '\n') at++;
    return at;
  }
  counts[3]++;
  if (at + 1 < length && text[at + 1] == '=' && (byte == '<' || byte == '>' || byte == '=' || byte == '!')) return at + 2;
  return at + 1;
}

unsigned char letter_of(int i) {
  int kind = i * 7 % 23;
  if (kind < 9) return 'a' + i % 26;
  if (kind < 12) return '0' + i % 10;
  if (kind < 15) return ' ';
  if (kind == 15) return '\n';
  if (kind < 18) return '=';
  if (kind == 18) return '<';
  if (kind < 21) return '/';
  return '+';
}

int main(void) {
  for (int i = 0; i < 1000; i++) text[i] = letter_of(i * i + i);
  for (int turn = 0; turn < 25; turn++) {
    int at = 0;
    while (at < 1000) at = next(text, at, 1000, counts);
    text[turn * 31] = '_';
  }
  for (int i = 0; i < 4; i++) {
    print(counts[i]);
    putchar(' ');
  }
  putchar('\n');
  return 0;
}
