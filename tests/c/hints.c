/* What gcc's hints to itself do beside: their arguments are evaluated. */
static int x = 1, y;

static int hinted(int z)
{
  if (__builtin_expect(x ? y != 0 : 0, z++))
    return 7;
  return z;
}

int main(void)
{
  int a[3] = { 4, 5, 6 }, *p = a;
  __builtin_prefetch(p++);
  __builtin_prefetch(a);
  return hinted(10) * 10 + *p;
}
