#include <stdio.h>
#include <stdlib.h>
#include <string.h>
struct person { char name[12]; int age; };
static int by_age(const void *a, const void *b) { const struct person *p = a, *q = b; return p->age - q->age; }
static int by_name(const void *a, const void *b) { return strcmp(((const struct person *)a)->name, ((const struct person *)b)->name); }
static int ints(const void *a, const void *b) { int x = *(const int *)a, y = *(const int *)b; return (x > y) - (x < y); }
static int down(const void *a, const void *b) { return *(int *)b - *(int *)a; }
static int words(const void *a, const void *b) { return strcmp(*(char **)a, *(char **)b); }
static int chars(const void *a, const void *b) { return *(const char *)a - *(const char *)b; }
struct person people[] = { { "Ann", 40 }, { "Bob", 30 }, { "Cy", 40 }, { "Di", 20 }, { "Ed", 30 } };
int main(void) {
  int a[] = { 5, 3, 9, -1, 3, 0 }, i, key = 9, none = 4;
  char *w[] = { "pear", "apple", "fig", "kiwi" };
  char text[] = "sorting";
  struct person *oldest, want = { "Di", 0 };
  qsort(a, 6, sizeof(int), ints);
  for (i = 0; i < 6; i++) printf("%d ", a[i]);
  int *f = bsearch(&key, a, 6, sizeof a[0], ints);
  printf("found %d %d\n", f ? (int)(f - a) : -1, bsearch(&none, a, 6, sizeof a[0], ints) == NULL);
  qsort(a, 6, sizeof *a, down);
  for (i = 0; i < 6; i++) printf("%d ", a[i]);
  qsort(w, sizeof w / sizeof w[0], sizeof w[0], words);
  for (i = 0; i < 4; i++) printf("%s ", w[i]);
  qsort(text, strlen(text), 1, chars);
  puts(text);
  oldest = &people[0];
  qsort(people, 5, sizeof(struct person), by_age);
  for (i = 0; i < 5; i++) printf("%s %d, ", people[i].name, people[i].age);
  printf("%s\n", oldest->name);
  qsort(people, 5, sizeof people[0], by_name);
  struct person *hit = bsearch(&want, people, 5, sizeof(struct person), by_name);
  printf("%d %s\n", hit->age, strndup(people[1].name, 2));
  return 0;
}
