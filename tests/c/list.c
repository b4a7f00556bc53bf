#include <stdio.h>
#include <stdlib.h>
#include <string.h>

typedef struct item {
	char name[16];
	int amount;
	struct item *next;
} Item;

static Item *head;

static Item *find(const char *name)
{
	Item *it;

	for (it = head; it; it = it->next)
		if (!strcmp(it->name, name))
			return it;
	return NULL;
}

static void add(const char *name, int amount)
{
	Item *it = find(name);

	if (!it) {
		it = malloc(sizeof *it);
		if (!it)
			exit(1);
		strcpy(it->name, name);
		it->amount = 0;
		it->next = head;
		head = it;
	}
	it->amount += amount;
}

static void drop(const char *name)
{
	Item **link = &head;

	while (*link && strcmp((*link)->name, name))
		link = &(*link)->next;
	if (*link) {
		Item *gone = *link;
		*link = gone->next;
		free(gone);
	}
}

int main(void)
{
	Item *it;
	int total = 0;

	add("apples", 3);
	add("pears", 5);
	add("plums", 1);
	add("apples", 4);
	drop("pears");
	drop("kiwis");
	for (it = head; it != NULL; it = it->next) {
		printf("%-8s|%4d|\n", it->name, it->amount);
		total += it->amount;
	}
	printf("total %d, %s\n", total, find("pears") ? "found" : "not found");
	return total;
}
