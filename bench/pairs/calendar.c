/* Days of the calendar, one after the other: Fridays that are a 13th, months with five Sundays, and the dates of Easter. */
#include "machine.h"

void print(int number) {
  if (number > 9) print(number / 10);
  putchar('0' + number % 10);
}

int is_leap(int year) {
  return year % 4 == 0 && (year % 100 != 0 || year % 400 == 0);
}

int days_of(int month, int year) {
  if (month == 2) return is_leap(year) ? 29 : 28;
  if (month == 4 || month == 6 || month == 9 || month == 11) return 30;
  return 31;
}

/* The day of the week of a date, 0 for Sunday. */
int weekday(int year, int month, int day) {
  if (month < 3) {
    month += 12;
    year--;
  }
  return (day + 13 * (month + 1) / 5 + year + year / 4 - year / 100 + year / 400 + 6) % 7;
}

int easter(int year) {
  int a = year % 19;
  int b = year / 100;
  int c = year % 100;
  int d = (19 * a + b - b / 4 - (b - (b + 8) / 25 + 1) / 3 + 15) % 30;
  int e = (32 + 2 * (b % 4) + 2 * (c / 4) - d - c % 4) % 7;
  int f = d + e - 7 * ((a + 11 * d + 22 * e) / 451) + 114;
  return f / 31 * 100 + f % 31 + 1;
}

int main(void) {
  int year = 1990;
  int month = 1;
  int day = 1;
  int today = weekday(1990, 1, 1);
  int sundays = 0;
  int black_fridays = 0;
  int long_months = 0;
  int wrong = 0;
  while (year < 2010) {
    if (today == 0) sundays++;
    if (today == 5 && day == 13) black_fridays++;
    if (weekday(year, month, day) != today) wrong++;
    today++;
    if (today == 7) today = 0;
    day++;
    if (day > days_of(month, year)) {
      if (sundays == 5) long_months++;
      sundays = 0;
      day = 1;
      month++;
      if (month > 12) {
        month = 1;
        year++;
      }
    }
  }
  int early = 0;
  for (int year = 1700; year < 2300; year++)
    if (easter(year) < 401) early++;
  print(black_fridays);
  putchar(' ');
  print(long_months);
  putchar(' ');
  print(wrong);
  putchar(' ');
  print(early);
  putchar('\n');
  return 0;
}
