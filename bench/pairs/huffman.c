/* A text in bits, few of them for letters that come often: the tree of the code in arrays, the bits, and the text again. */
#include "machine.h"
#include "checked.h"

void print(int number) {
  if (number > 9) print(number / 10);
  putchar('0' + number % 10);
}

ARRAY(int, weight, 32);
ARRAY(int, up, 32);
ARRAY(int, zero, 32);
ARRAY(int, one, 32);
ARRAY(unsigned char, text, 1200);
ARRAY(unsigned char, bits, 700);
int nodes;

/* The lightest node that has none above it, but for one. */
int lightest(int but) {
  int best = -1;
  for (int i = 0; i < nodes; i++)
    if (i != but && weight[i] > 0 && up[i] < 0 && (best < 0 || weight[i] < weight[best])) best = i;
  return best;
}

/* Gives the root. */
int build(void) {
  nodes = 16;
  for (;;) {
    int a = lightest(-1);
    int b = lightest(a);
    if (b < 0) return a;
    weight[nodes] = weight[a] + weight[b];
    up[nodes] = -1;
    zero[nodes] = a;
    one[nodes] = b;
    up[a] = nodes;
    up[b] = nodes;
    nodes++;
  }
}

int put_bit(A(unsigned char) bits, int at, int bit) {
  if (bit) bits[at / 8] |= 1 << at % 8;
  return at + 1;
}

int put_code(A(unsigned char) bits, int at, int node, int root) {
  if (node == root) return at;
  at = put_code(bits, at, up[node], root);
  return put_bit(bits, at, one[up[node]] == node);
}

int get_bit(A(unsigned char) bits, int at) {
  return bits[at / 8] >> at % 8 & 1;
}

int main(void) {
  for (int i = 0; i < 32; i++) up[i] = zero[i] = one[i] = -1;
  int state = 21;
  for (int i = 0; i < 1200; i++) {
    state = state * 1103515245 + 12345;
    int letter = state >> 16 & 15;
    if (letter > (state >> 21 & 15)) letter /= 3;
    text[i] = letter;
    weight[letter]++;
  }
  int root = build();
  int used = 0;
  for (int i = 0; i < 1200; i++) used = put_code(bits, used, text[i], root);
  int good = 0;
  int at = 0;
  for (int i = 0; at < used; i++) {
    int node = root;
    while (zero[node] >= 0) node = get_bit(bits, at++) ? one[node] : zero[node];
    if (text[i] == node) good++;
  }
  print(used);
  putchar(' ');
  print(good);
  putchar('\n');
  return 0;
}
