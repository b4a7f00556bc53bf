#include <stdio.h>
#include <string.h>
typedef void (*handler)(int);
#define DEFAULT ((handler)0)
#define IGNORE ((handler)1)
#define FAILED ((handler)-1)
static handler kept = IGNORE;
static handler set(handler h) { handler old = kept; if (h == FAILED) return FAILED; kept = h; return old; }
static int copy(FILE *from, FILE *to)
{
  int c, n = 0;
  while ((c = getc(from)) != EOF && c != '\n') {
    if (putc(c, to) == EOF) return -1;
    n++;
  }
  fputs("|\n", to);
  fprintf(to, "%d bytes, %s\n", n, to == stdout ? "out" : "err");
  return n;
}
struct place { FILE *file; int line; };
static int next(struct place *p)
{
  char line[80];
  if (!fgets(line, sizeof line, p->file)) return feof(p->file) ? 0 : -1;
  p->line++;
  printf("%d: %s", p->line, line);
  return 1;
}
static const char *forms[] = { "%d and %s\n", "[%5d]%s\n" };
static void computed(FILE *out)
{
  int i;
  for (i = 0; i < 2; i++) {
    fprintf(stdout, forms[i], i, "a");
    fprintf(out, forms[1 - i], i + 7, "b");
    fprintf(stderr, forms[i], i, "c");
  }
}
int main(void)
{
  FILE *in = stdin;
  struct place p = { stdin, 0 };
  int c;
  printf("%d\n", copy(in, stdout));
  printf("%d\n", copy(in, stderr));
  c = fgetc(in);
  ungetc(c, in);
  printf("%c %d %d\n", c, feof(in), ferror(stdin));
  while (next(&p) > 0) ;
  printf("%d %d %d\n", p.line, feof(stdin) != 0, ferror(in));
  fflush(p.file); fflush(stdout);
  printf("%d %d %d\n", set(DEFAULT) == IGNORE, set(IGNORE) == DEFAULT, set(FAILED) == FAILED);
  if (in != stdin || in == stdout) printf("no\n");
  computed(stdout);
  computed(stderr);
  { int stderr = 4; printf("%d\n", stderr); }
  fclose(in);
  return 0;
}
