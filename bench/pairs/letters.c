/* How often each letter comes in a text, whether it is a vowel, and the text with its letters moved on by 13. */
#include "machine.h"
#include "checked.h"

void print(int number) {
  if (number > 9) print(number / 10);
  putchar('0' + number % 10);
}

ARRAY(unsigned char, text, 900);
ARRAY(int, counts, 26);

int is_letter(int byte) {
  return byte >= 'a' && byte <= 'z';
}

int is_vowel(int byte) {
  return byte == 'a' || byte == 'e' || byte == 'i' || byte == 'o' || byte == 'u';
}

unsigned char moved(int byte) {
  if (!is_letter(byte)) return byte;
  return 'a' + (byte - 'a' + 13) % 26;
}

void count_letters(A(unsigned char) text, int length, A(int) counts) {
  for (int i = 0; i < length; i++)
    if (is_letter(text[i])) counts[text[i] - 'a']++;
}

int vowels(A(unsigned char) text, int length) {
  int count = 0;
  for (int i = 0; i < length; i++)
    if (is_vowel(text[i])) count++;
  return count;
}

int main(void) {
  for (int i = 0; i < 900; i++) text[i] = i % 7 == 6 ? ' ' : 'a' + i * 11 % 26;
  int sum = 0;
  for (int turn = 0; turn < 20; turn++) {
    count_letters(text, 900, counts);
    sum += vowels(text, 900);
    for (int i = 0; i < 900; i++) text[i] = moved(text[i]);
  }
  print(sum);
  putchar(' ');
  print(counts[4]);
  putchar('\n');
  return 0;
}
