/* Where a word stands in a text: by trying each place, and by a table of how far to go back. */
#include "machine.h"
#include "checked.h"

void print(int number) {
  if (number > 9) print(number / 10);
  putchar('0' + number % 10);
}

ARRAY(unsigned char, text, 1000);
ARRAY(unsigned char, word, 5);
ARRAY(int, back, 5);

int find(A(unsigned char) text, int length, A(unsigned char) word, int size) {
  int count = 0;
  for (int at = 0; at + size <= length; at++) {
    int i = 0;
    while (i < size && text[at + i] == word[i]) i++;
    if (i == size) count++;
  }
  return count;
}

void prepare(A(unsigned char) word, int size, A(int) back) {
  int same = 0;
  back[0] = 0;
  for (int at = 1; at < size; at++) {
    while (same > 0 && word[at] != word[same]) same = back[same - 1];
    if (word[at] == word[same]) same++;
    back[at] = same;
  }
}

int find_fast(A(unsigned char) text, int length, A(unsigned char) word, int size, A(int) back) {
  int same = 0;
  int count = 0;
  for (int at = 0; at < length; at++) {
    while (same > 0 && text[at] != word[same]) same = back[same - 1];
    if (text[at] == word[same]) same++;
    if (same == size) {
      count++;
      same = back[same - 1];
    }
  }
  return count;
}

int main(void) {
  for (int i = 0; i < 1000; i++) text[i] = 'a' + i * i % 3;
  for (int i = 0; i < 5; i++) word[i] = 'a' + i * i % 3;
  int sum = 0;
  for (int turn = 0; turn < 20; turn++) {
    sum += find(text, 1000, word, 5);
    prepare(word, 5, back);
    sum += 2 * find_fast(text, 1000, word, 5, back);
    text[turn * 17] = 'c';
  }
  print(sum);
  putchar('\n');
  return 0;
}
