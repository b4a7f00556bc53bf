/* What the programs in C have of a library: the machine's services, and jumps out of calls. start.s has them. */

#ifdef __cplusplus
extern "C" {
#endif

/* The next byte of the input, or -1 where none is left. */
int getchar(void);

/* Prints a byte, and gives it. */
int putchar(int byte);

/* Ends the run, as `main` does where it returns. */
void exit(int value) __attribute__((noreturn));

/* Where a jump goes: the registers that a call keeps, the stack pointer and the way back. */
typedef int jump_place[11];

/* Notes a place and gives 0. A jump to it comes back here, with the value that it carries. */
int setjmp(jump_place place) __attribute__((returns_twice));

void longjmp(jump_place place, int value) __attribute__((noreturn));

#ifdef __cplusplus
}
#endif
