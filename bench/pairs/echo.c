/* Prints its input. */
#include "machine.h"

int main(void) {
  int byte = getchar();
  while (byte != -1) {
    putchar(byte);
    byte = getchar();
  }
  return 0;
}
