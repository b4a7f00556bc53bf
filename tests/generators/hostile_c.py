"""C programs that attackers may send: those that make cpp read a file of the machine, and one whose macro grows exponentially."""

# Texts that try to include words of another file in a compiler message, each with the line number
# of the attempt.
READS = (
    (b'#include "/etc/passwd"\n', 1), (b"\n%: /* a */ include </etc/passwd>\n", 2), (b'#inc\\ \nlude "../../etc/passwd"\n', 1),
    (b"#define FILE </etc/passwd>\n#include FILE\n", 2), (b'#if __has_include("/etc/passwd")\n#endif\n', 1),
    (b'#import "/etc/passwd"\n', 1), (b'#pragma GCC dependency "/etc/passwd"\n', 1),
    (b"int a; // \\\n\n#include_next <../../../../etc/passwd>\n", 3),
)
# The macro of this hostile program expands to 10^10 tokens.
BOMB = b"#define A x x x x x x x x x x\n" + b"".join(
    b"#define %c %s\n" % (letter, b" ".join([b"%c" % (letter - 1)] * 10)) for letter in b"BCDEFGHIJ") + b"int main(void) { J; return 0; }\n"
