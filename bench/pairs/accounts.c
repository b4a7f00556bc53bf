/* Transfers between accounts: a function gives 0, or what is wrong: something is missing, or an account is closed or not there. */
#include "machine.h"
#include "checked.h"

enum { DONE, MISSING, CLOSED, UNKNOWN };

struct Account {
  int number;
  int balance;
  int is_closed;
  int entries;
};

ARRAY(struct Account, pool, 21);
ARRAY(P(struct Account), accounts, 24);
int detail;

void print(int number) {
  if (number > 9) print(number / 10);
  putchar('0' + number % 10);
}

int find(int number, P(P(struct Account)) result) {
  for (int i = number % 7 * 3; i < 24; i++) {
    P(struct Account) account = accounts[i];
    if (account != 0 && account->number == number) {
      *result = account;
      return DONE;
    }
  }
  detail = number;
  return UNKNOWN;
}

int withdraw(P(struct Account) account, int amount) {
  if (account->is_closed) return CLOSED;
  if (account->balance < amount) {
    detail = amount - account->balance;
    return MISSING;
  }
  account->balance -= amount;
  account->entries++;
  return DONE;
}

int deposit(P(struct Account) account, int amount) {
  if (account->is_closed) return CLOSED;
  account->balance += amount;
  account->entries++;
  return DONE;
}

int transfer(int from, int to, int amount) {
  P(struct Account) source;
  P(struct Account) target;
  int wrong = find(from, &source);
  if (wrong) return wrong;
  wrong = find(to, &target);
  if (wrong) return wrong;
  wrong = withdraw(source, amount);
  if (wrong) return wrong;
  wrong = deposit(target, amount);
  if (wrong) deposit(source, amount);
  return wrong;
}

int main(void) {
  for (int i = 0; i < 21; i++) {
    P(struct Account) account = &pool[i];
    account->number = i / 3 + i % 3 * 7;
    account->balance = 500;
    account->is_closed = i % 5 == 4;
    accounts[i] = account;
  }
  int state = 8;
  int missing = 0;
  int closed = 0;
  int unknown = 0;
  for (int turn = 0; turn < 2500; turn++) {
    state = state * 1103515245 + 12345;
    int from = (state >> 16 & 255) % 22;
    int to = (state >> 22 & 255) % 22;
    int wrong = transfer(from, to, turn % 97 + 1);
    if (wrong == MISSING) missing += detail;
    else if (wrong == CLOSED) closed++;
    else if (wrong == UNKNOWN) unknown += detail;
  }
  int sum = 0;
  int entries = 0;
  for (int i = 0; i < 21; i++) {
    sum += accounts[i]->balance;
    entries = entries * 3 + accounts[i]->entries & 65535;
  }
  print(sum);
  putchar(' ');
  print(entries);
  putchar(' ');
  print(missing);
  putchar(' ');
  print(closed);
  putchar(' ');
  print(unknown);
  putchar('\n');
  return 0;
}
