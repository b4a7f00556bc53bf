"""The listing of words of text by mips-linux-gnu-objdump, spelled as `disasm` spells it.

The spellings differ by choice, and in nothing else: objdump has no space behind a comma, writes targets with as few digits as there are,
the immediates of some instructions and the amounts of shifts in hexadecimal, `jalr` without register 31 and `div` with register 0 before
its operands, leaves out the code 0 of `syscall` and `break`, splits that of `break`, and calls a `subu` from register 0 `negu`.
"""
import re
import subprocess

OBJDUMP = "mips-linux-gnu-objdump"
LINE = re.compile(r"^ *([0-9a-f]+):\t([0-9a-f]{8}) \t(\S+)(?:\t(\S+))?$", re.M)
IN_DECIMAL = ("andi", "ori", "xori", "lui", "sll", "srl", "sra")
TO_TARGETS = ("beq", "bne", "blez", "bgtz", "bltz", "bgez", "j", "jal")


def spelled(name, operands):
    """An instruction as `disasm` writes it."""
    last = int(operands[-1], 16) if operands and operands[-1].startswith("0x") else 0
    if name in IN_DECIMAL:
        operands = [*operands[:-1], str(last)]
    elif name in TO_TARGETS:
        operands = [*operands[:-1], f"0x{last:08x}"]
    elif name in ("syscall", "break"):
        operands = [str(int(operands[0], 16) << 10 | last if len(operands) == 2 else last << 10 * (name == "break"))]
    elif name == "jalr" and len(operands) == 1:
        operands = ["$31", *operands]
    elif name == "div":
        operands = operands[1:]
    elif name == "negu":
        name, operands = "subu", [operands[0], "$0", operands[1]]
    return f"{name} {', '.join(operands)}"


def listing(path, at):
    """The lines of a file of words, the first of which stands at this address."""
    words = [OBJDUMP, "-D", "-z", "-b", "binary", "-m", "mips:isa32", "-EB", "-M", "reg-names=numeric,no-aliases"]
    done = subprocess.run([*words, f"--adjust-vma={at}", path], check=True, capture_output=True, text=True)
    return [f"{int(place, 16):08x}: {word} {spelled(name, operands.split(',') if operands else [])}\n"
            for place, word, name, operands in LINE.findall(done.stdout)]
