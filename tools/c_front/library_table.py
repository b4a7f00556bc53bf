"""The functions of C's library that are translated: what each returns and takes.

A letter a parameter: i an int, u an unsigned long, w a long long, s a text, p any pointer to objects, k one to a single object,
c a function, f a file that is the standard input, output or error, n the place of an end, . the arguments of a format. The result is a
type, `0` for the first argument, `p` for memory."""

LIBRARY = {
    "putchar": ("int", "i"), "getchar": ("int", ""), "putc": ("int", "if"), "fputc": ("int", "if"), "getc": ("int", "f"),
    "fgetc": ("int", "f"), "ungetc": ("int", "if"), "puts": ("int", "s"), "fputs": ("int", "sf"), "fgets": ("0", "sif"),
    "printf": ("int", "s."), "fprintf": ("int", "fs."), "sprintf": ("int", "ss."), "snprintf": ("int", "sus."),
    "scanf": ("int", "s."), "sscanf": ("int", "ss."),
    "time": ("long", "p"), "clock": ("long", ""),
    "fflush": ("int", "f"), "setbuf": ("void", "fp"), "setvbuf": ("int", "fpiu"), "perror": ("void", "s"),
    "putchar_unlocked": ("int", "i"), "getchar_unlocked": ("int", ""), "feof": ("int", "f"), "ferror": ("int", "f"), "fclose": ("int", "f"),
    "fwrite": ("ulong", "puuf"),
    "malloc": ("p", "u"), "calloc": ("p", "uu"), "realloc": ("p", "pu"), "free": ("void", "p"), "alloca": ("p", "u"),
    "exit": ("void", "i"), "_exit": ("void", "i"), "_Exit": ("void", "i"), "abort": ("void", ""), "__assert_fail": ("void", ""),
    "unreachable": ("void", ""), "trap": ("void", ""),
    "abs": ("int", "i"), "labs": ("long", "l"), "atoi": ("int", "s"), "atol": ("long", "s"), "rand": ("int", ""), "srand": ("void", "v"),
    "random": ("long", ""), "srandom": ("void", "v"),
    "qsort": ("void", "puuc"), "bsearch": ("p", "kpuuc"), "strtol": ("long", "sni"), "strtoul": ("ulong", "sni"),
    "llabs": ("wide", "w"), "atoll": ("wide", "s"), "strtoll": ("wide", "sni"), "strtoull": ("uwide", "sni"),
    "strlen": ("ulong", "s"), "strcpy": ("0", "ss"), "strncpy": ("0", "ssu"), "strcat": ("0", "ss"), "strncat": ("0", "ssu"),
    "strcmp": ("int", "ss"), "strncmp": ("int", "ssu"), "strcasecmp": ("int", "ss"), "strncasecmp": ("int", "ssu"),
    "strchr": ("0", "si"), "strrchr": ("0", "si"), "index": ("0", "si"), "rindex": ("0", "si"), "strstr": ("0", "ss"),
    "strspn": ("ulong", "ss"), "strcspn": ("ulong", "ss"), "strpbrk": ("0", "ss"), "strdup": ("text", "s"), "strtok": ("text", "ss"),
    "strndup": ("text", "su"), "strnlen": ("ulong", "su"), "stpcpy": ("0", "ss"), "toascii": ("int", "i"), "isascii": ("int", "i"),
    "memset": ("0", "piu"), "memcpy": ("0", "ppu"), "memmove": ("0", "ppu"), "memcmp": ("int", "ppu"), "memchr": ("0", "piu"),
    "mempcpy": ("0", "ppu"), "bzero": ("void", "pu"), "bcopy": ("void", "ppu"),
    "isalpha": ("int", "i"), "isdigit": ("int", "i"), "isalnum": ("int", "i"), "isspace": ("int", "i"), "isupper": ("int", "i"),
    "islower": ("int", "i"), "isxdigit": ("int", "i"), "ispunct": ("int", "i"), "isprint": ("int", "i"), "iscntrl": ("int", "i"),
    "isgraph": ("int", "i"), "isblank": ("int", "i"), "toupper": ("int", "i"), "tolower": ("int", "i"),
    "expect": ("long", "ll"), "constant_p": ("int", "."), "prefetch": ("void", "."), "ffs": ("int", "i"), "popcount": ("int", "v"),
    "clz": ("int", "v"), "ctz": ("int", "v"), "parity": ("int", "v"), "bswap32": ("uint", "v"), "bswap16": ("ushort", "v"),
    "popcountl": ("int", "v"), "clzl": ("int", "v"), "ctzl": ("int", "v"),
}
