#include <stdio.h>
#include <string.h>
#include <stdlib.h>
#include <ctype.h>

static char *trim(char *s)
{
    char *end;
    while (isspace((unsigned char)*s)) s++;
    end = s + strlen(s);
    while (end > s && isspace((unsigned char)end[-1])) --end;
    *end = '\0';
    return s;
}

int main(void)
{
    char line[64], copy[64], word[10][8];
    int n = 0, i, number = 0;
    char *p;

    while (fgets(line, sizeof line, stdin)) {
        line[strcspn(line, "\n")] = 0;
        strcpy(copy, trim(line));
        if (!strncmp(copy, "set ", 4)) {
            number = atoi(copy + 4);
            continue;
        }
        for (p = strtok(copy, ","); p && n < 10; p = strtok(NULL, ",")) {
            strncpy(word[n], p, 7);
            word[n][7] = 0;
            n++;
        }
    }
    for (i = 0; i < n; i++) printf("%d:%s ", i, word[i]);
    putchar('\n');
    sprintf(line, "<%d|%s|%3d>", number, n > 1 ? word[1] : "", n);
    strcat(line, "!");
    printf("%s %lu\n", line, (unsigned long)strlen(line));
    p = strchr(line, '|');
    printf("%s %d %s\n", p, (int)(p - line), strstr(line, "|") == p ? "same" : "other");
    printf("%d %d %d\n", strcmp("abc", "abd") < 0, strcmp("b", "a") > 0, memcmp("xy", "xy", 2));
    memset(copy, '-', 5);
    memcpy(copy + 5, "end", 4);
    puts(copy);
    memmove(copy + 1, copy, 4);
    puts(strrchr(copy, 'e'));
    return n;
}
