/* A text in which each place of one word is replaced by another, over and over; a text is a struct of its bytes and how many there are. */
#include "machine.h"
#include "checked.h"

struct Text {
  A(unsigned char) bytes;
  int room;
  int used;
};

ARRAY(unsigned char, pool, 3006);
ARRAY(struct Text, texts, 4);

void print(int number) {
  if (number > 9) print(number / 10);
  putchar('0' + number % 10);
}

P(struct Text) empty(int which, int place, int room) {
  P(struct Text) text = &texts[which];
  text->bytes = PART(unsigned char, pool, place, room);
  text->room = room;
  text->used = 0;
  return text;
}

void append(P(struct Text) text, int byte) {
  if (text->used < text->room) {
    text->bytes[text->used] = byte;
    text->used++;
  }
}

void append_all(P(struct Text) to, P(struct Text) from) {
  for (int i = 0; i < from->used; i++) append(to, from->bytes[i]);
}

int starts_at(P(struct Text) text, int at, P(struct Text) word) {
  if (at + word->used > text->used) return 0;
  for (int i = 0; i < word->used; i++)
    if (text->bytes[at + i] != word->bytes[i]) return 0;
  return 1;
}

int replace(P(struct Text) from, P(struct Text) to, P(struct Text) word, P(struct Text) other) {
  int times = 0;
  int at = 0;
  to->used = 0;
  while (at < from->used) {
    if (starts_at(from, at, word)) {
      append_all(to, other);
      at += word->used;
      times++;
    } else {
      append(to, from->bytes[at]);
      at++;
    }
  }
  return times;
}

void set_word(P(struct Text) text, int a, int b, int c) {
  text->used = 0;
  append(text, a);
  append(text, b);
  if (c != 0) append(text, c);
}

int main(void) {
  P(struct Text) one = empty(0, 0, 1500);
  P(struct Text) two = empty(1, 1500, 1500);
  P(struct Text) word = empty(2, 3000, 3);
  P(struct Text) other = empty(3, 3003, 3);
  for (int i = 0; i < 900; i++) append(one, 'a' + i * i / 7 % 5);
  int times = 0;
  for (int turn = 0; turn < 8; turn++) {
    set_word(word, 'a' + turn % 5, 'a' + turn * 2 % 5, 0);
    set_word(other, 'b' + turn % 3, 'a', 'd');
    times += replace(one, two, word, other);
    times += replace(two, one, other, word);
  }
  int sum = 0;
  for (int i = 0; i < one->used; i++) sum = sum * 3 + one->bytes[i] & 65535;
  print(times);
  putchar(' ');
  print(one->used);
  putchar(' ');
  print(sum);
  putchar('\n');
  return 0;
}
