#include <stdio.h>
#include <ctype.h>

enum state { START, NUMBER, NAME, STRING, DONE };

static const char input[] = "x1 = 42 + foo; \"a b\" 7;";

static int classify(int c)
{
    switch (c) {
    case ' ': case '\t': case '\n':
        return 0;
    case '0': case '1': case '2': case '3': case '4':
    case '5': case '6': case '7': case '8': case '9':
        return 1;
    case '"':
        return 3;
    default:
        if (isalpha(c)) return 2;
    }
    return 4;
}

int main(void)
{
    enum state st = START;
    const char *p = input;
    int counts[5] = { 0 };
    int i, done = 0;

    while (!done) {
        int c = *p;
        switch (st) {
        case START:
            if (c == '\0') { st = DONE; break; }
            switch (classify(c)) {
            case 1: st = NUMBER; counts[1]++; break;
            case 2: st = NAME; counts[2]++; break;
            case 3: st = STRING; counts[3]++; p++; break;
            case 4: counts[4]++;
            /* falls through */
            default: p++;
            }
            continue;
        case NUMBER:
            if (!isdigit(c)) st = START; else { putchar(c); p++; }
            break;
        case NAME:
            if (!isalnum(c)) { putchar(','); st = START; }
            else { putchar(toupper(c)); p++; }
            break;
        case STRING:
            if (c == '"') st = START; else putchar(c == ' ' ? '_' : c);
            p++;
            break;
        case DONE:
            done = 1;
        }
    }
    putchar('\n');
    for (i = 0; i < (int)(sizeof counts / sizeof counts[0]); i++)
        printf("%d%s", counts[i], i == 4 ? "\n" : " ");
    do {
        i--;
        if (i == 3) continue;
        if (i == 1) break;
        printf("%d;", i);
    } while (i > 0);
    puts("");
    return st;
}
