/* Counts how often each word of the input comes. */
#include <ctype.h>
#include <stdio.h>
#include <stdlib.h>
#include <string.h>

struct word {
    char text[20];
    int count;
    struct word *next;
};

static struct word *find(struct word *all, const char *text)
{
    while (all != NULL && strcmp(all->text, text) != 0)
        all = all->next;
    return all;
}

static struct word *add(struct word *all, const char *text)
{
    struct word *it = find(all, text);

    if (it == NULL) {
        it = malloc(sizeof *it);
        if (it == NULL)
            exit(1);
        strcpy(it->text, text);
        it->count = 0;
        it->next = all;
        all = it;
    }
    it->count++;
    return all;
}

int main(void)
{
    struct word *all = NULL;
    char text[20];
    int length = 0, c;

    do {
        c = getchar();
        if (isalpha(c) && length < 19) {
            text[length++] = (char) tolower(c);
        } else if (length > 0) {
            text[length] = '\0';
            all = add(all, text);
            length = 0;
        }
    } while (c != EOF);
    for (struct word *it = all; it != NULL; it = it->next)
        printf("%s %d\n", it->text, it->count);
    return 0;
}
