/* Three tables that are filled row by row: the most that a sack can hold, in how many ways a sum is paid, and the longest series that
   rises. */
#include "machine.h"
#include "checked.h"

void print(int number) {
  if (number > 9) print(number / 10);
  putchar('0' + number % 10);
}

int max(int a, int b) {
  return a > b ? a : b;
}

int fill_sack(A(int) weights, A(int) values, int items, A(int) best, int room) {
  for (int w = 0; w <= room; w++) best[w] = 0;
  for (int item = 0; item < items; item++)
    for (int w = room; w >= weights[item]; w--) best[w] = max(best[w], best[w - weights[item]] + values[item]);
  return best[room];
}

int ways_to_pay(A(int) coins, int kinds, A(int) ways, int sum) {
  for (int s = 1; s <= sum; s++) ways[s] = 0;
  ways[0] = 1;
  for (int kind = 0; kind < kinds; kind++)
    for (int s = coins[kind]; s <= sum; s++) ways[s] = (ways[s] + ways[s - coins[kind]]) % 1000003;
  return ways[sum];
}

int longest_rise(A(int) series, int n, A(int) lengths) {
  int best = 0;
  for (int i = 0; i < n; i++) {
    lengths[i] = 1;
    for (int j = 0; j < i; j++)
      if (series[j] < series[i] && lengths[j] + 1 > lengths[i]) lengths[i] = lengths[j] + 1;
    best = max(best, lengths[i]);
  }
  return best;
}

ARRAY(int, weights, 40);
ARRAY(int, values, 40);
ARRAY(int, coins, 8);
ARRAY(int, series, 120);
ARRAY(int, table, 501);

int main(void) {
  for (int i = 0; i < 40; i++) {
    weights[i] = i * 17 % 31 + 3;
    values[i] = i * 29 % 43 + 5;
  }
  for (int i = 0; i < 8; i++) coins[i] = i * i + 1;
  for (int i = 0; i < 120; i++) series[i] = i * 37 % 101;
  print(fill_sack(weights, values, 40, table, 300));
  putchar(' ');
  print(ways_to_pay(coins, 8, table, 500));
  putchar(' ');
  print(longest_rise(series, 120, table));
  putchar('\n');
  return 0;
}
