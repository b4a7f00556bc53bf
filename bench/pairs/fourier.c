/* The fast Fourier transform of 128 points in fixed point, with 14 bits behind the point, forward and back. */
#include "machine.h"
#include "checked.h"

void print(int number) {
  if (number > 9) print(number / 10);
  putchar('0' + number % 10);
}

int times(int a, int b) {
  return a * b >> 14;
}

/* The cosines and sines of a whole turn, each from the one before by a turn of 1/128. */
void fill_tables(A(int) cosines, A(int) sines) {
  int c = 16384;
  int s = 0;
  for (int i = 0; i < 128; i++) {
    cosines[i] = c;
    sines[i] = s;
    int next = times(c, 16364) - times(s, 804);
    s = times(s, 16364) + times(c, 804);
    c = next;
  }
}

void shuffle(A(int) re, A(int) im, int n) {
  int j = 0;
  for (int i = 0; i < n - 1; i++) {
    if (i < j) {
      int kept = re[i];
      re[i] = re[j];
      re[j] = kept;
      kept = im[i];
      im[i] = im[j];
      im[j] = kept;
    }
    int k = n / 2;
    while (k <= j) {
      j -= k;
      k /= 2;
    }
    j += k;
  }
}

/* `sign` is 1 forward, where all is halved at each step, and -1 back. */
void transform(A(int) re, A(int) im, int n, int sign, A(int) cosines, A(int) sines) {
  shuffle(re, im, n);
  for (int span = 1; span < n; span *= 2) {
    int stride = n / (2 * span);
    for (int group = 0; group < span; group++) {
      int wr = cosines[group * stride];
      int wi = -sign * sines[group * stride];
      for (int top = group; top < n; top += 2 * span) {
        int low = top + span;
        int tr = times(wr, re[low]) - times(wi, im[low]);
        int ti = times(wr, im[low]) + times(wi, re[low]);
        re[low] = re[top] - tr;
        im[low] = im[top] - ti;
        re[top] += tr;
        im[top] += ti;
        if (sign > 0) {
          re[low] >>= 1;
          im[low] >>= 1;
          re[top] >>= 1;
          im[top] >>= 1;
        }
      }
    }
  }
}

ARRAY(int, cosines, 128);
ARRAY(int, sines, 128);
ARRAY(int, re, 128);
ARRAY(int, im, 128);

int main(void) {
  fill_tables(cosines, sines);
  int check = 0;
  for (int turn = 0; turn < 6; turn++) {
    for (int i = 0; i < 128; i++) {
      re[i] = (i * (turn + 3) % 32 - 16) * 500;
      im[i] = 0;
    }
    transform(re, im, 128, 1, cosines, sines);
    int peak = 1;
    for (int i = 1; i < 64; i++)
      if (re[i] * re[i] + im[i] * im[i] > re[peak] * re[peak] + im[peak] * im[peak]) peak = i;
    transform(re, im, 128, -1, cosines, sines);
    check = check * 7 + peak + (re[turn + 20] & 4095) & 1048575;
  }
  print(check);
  putchar('\n');
  return 0;
}
