/* Bytes as letters, four for three, as in mail, and the letters as bytes again. */
#include "machine.h"
#include "checked.h"

void print(int number) {
  if (number > 9) print(number / 10);
  putchar('0' + number % 10);
}

int letter_of(int six) {
  if (six < 26) return 'A' + six;
  if (six < 52) return 'a' + six - 26;
  if (six < 62) return '0' + six - 52;
  if (six == 62) return '+';
  return '/';
}

int six_of(int letter) {
  if (letter >= 'A' && letter <= 'Z') return letter - 'A';
  if (letter >= 'a' && letter <= 'z') return letter - 'a' + 26;
  if (letter >= '0' && letter <= '9') return letter - '0' + 52;
  if (letter == '+') return 62;
  if (letter == '/') return 63;
  return -1;
}

int encode(A(unsigned char) bytes, int n, A(unsigned char) text) {
  int out = 0;
  for (int i = 0; i < n; i += 3) {
    int group = bytes[i] << 16;
    if (i + 1 < n) group |= bytes[i + 1] << 8;
    if (i + 2 < n) group |= bytes[i + 2];
    text[out] = letter_of(group >> 18);
    text[out + 1] = letter_of(group >> 12 & 63);
    text[out + 2] = '=';
    text[out + 3] = '=';
    if (i + 1 < n) text[out + 2] = letter_of(group >> 6 & 63);
    if (i + 2 < n) text[out + 3] = letter_of(group & 63);
    out += 4;
  }
  return out;
}

int decode(A(unsigned char) text, int n, A(unsigned char) bytes) {
  int out = 0;
  int bits = 0;
  int held = 0;
  for (int i = 0; i < n; i++) {
    int six = six_of(text[i]);
    if (six < 0) continue;
    held = (held << 6 | six) & 65535;
    bits += 6;
    if (bits >= 8) {
      bits -= 8;
      bytes[out++] = held >> bits;
    }
  }
  return out;
}

ARRAY(unsigned char, bytes, 300);
ARRAY(unsigned char, text, 400);
ARRAY(unsigned char, again, 300);

int main(void) {
  for (int i = 0; i < 300; i++) bytes[i] = i * 77 + i / 5;
  int letters = 0;
  int good = 0;
  for (int turn = 0; turn < 25; turn++) {
    int length = encode(bytes, 300 - turn, text);
    letters += length;
    if (decode(text, length, again) == 300 - turn && again[turn] == bytes[turn]) good++;
    bytes[turn * 3] = text[turn];
  }
  print(letters);
  putchar(' ');
  print(good);
  putchar(' ');
  for (int i = 0; i < 12; i++) putchar(text[i]);
  putchar('\n');
  return 0;
}
