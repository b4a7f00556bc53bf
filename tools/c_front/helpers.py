"""The functions in the language itself that stand for C's operators and library. Each has its text, and names what it calls."""
import re

HELPERS = {}
# The beginnings of the declarations of variables in which helpers keep state between calls.
STATES = ("int wide_high", "int wide_rest", "char ?text_rest", "int kept_byte", "int number_end", "char ?scanned_text",
          "char ?printed_to", "int ?random_state", "char ?format_rest")


def helper(text):
    name = re.match(r"(?:/\*.*?\*/\s*)?(?:int|void|char|struct \w+)[^(]*?(\w+)\(", text, re.S)[1]
    HELPERS[name] = text.strip() + "\n"


for piece in r'''
/* Whether a is below b, both without a sign. */
int unsigned_below(int a, int b) {
  return (a ^ -2147483647 - 1) < (b ^ -2147483647 - 1);
}
====
/* a / b, both without a sign. */
int unsigned_quotient(int a, int b) {
  if (b < 0) return !unsigned_below(a, b);
  if (a >= 0) return a / b;
  int quotient = (a >> 1 & 2147483647) / b << 1;
  if (!unsigned_below(a - quotient * b, b)) quotient = quotient + 1;
  return quotient;
}
====
/* a % b, both without a sign. */
int unsigned_remainder(int a, int b) {
  if (a >= 0 && b > 0) return a % b;
  return a - unsigned_quotient(a, b) * b;
}
====
/* a >> n, with zeros from the left. */
int unsigned_shift(int a, int n) {
  if ((n & 31) == 0) return a;
  return a >> n & (1 << 32 - n) - 1;
}
====
int wide_high = 0;

/* Returns the low half of a number of 64 bits, and leaves its high half. */
int wide_result(int low, int high) {
  wide_high = high;
  return low;
}
====
/* Whether a number of 64 bits is below another, both without a sign. */
int wide_unsigned_below(int a, int a_high, int b, int b_high) {
  if (a_high == b_high) return unsigned_below(a, b);
  return unsigned_below(a_high, b_high);
}
====
/* The same of numbers with a sign. */
int wide_below(int a, int a_high, int b, int b_high) {
  if (a_high == b_high) return unsigned_below(a, b);
  return a_high < b_high;
}
====
int wide_product(int a, int a_high, int b, int b_high) {
  int right = (a & 65535) * (b & 65535);
  int middle = (a >> 16 & 65535) * (b & 65535) + (right >> 16 & 65535);
  int other = (a & 65535) * (b >> 16 & 65535) + (middle & 65535);
  int left = (a >> 16 & 65535) * (b >> 16 & 65535) + (middle >> 16 & 65535) + (other >> 16 & 65535);
  return wide_result(a * b, left + a * b_high + a_high * b);
}
====
int wide_negated(int a, int a_high) {
  return wide_result(-a, ~a_high + (a == 0));
}
====
int wide_rest = 0;
int wide_rest_high = 0;

/* The quotient of two numbers of 64 bits without a sign, bit by bit; the remainder stays in `wide_rest`. */
int wide_quotient(int a, int a_high, int b, int b_high) {
  int low = 0;
  int high = 0;
  int rest = 0;
  int rest_high = 0;
  int i = 63;
  if ((b | b_high) == 0) return 1 / b;
  if ((a_high | b_high) == 0) {
    wide_rest = unsigned_remainder(a, b);
    wide_rest_high = 0;
    return wide_result(unsigned_quotient(a, b), 0);
  }
  while (i >= 0) {
    int over = rest_high < 0;
    int bit = a >> i & 1;
    if (i > 31) bit = a_high >> i - 32 & 1;
    rest_high = rest_high << 1 | (rest >> 31 & 1);
    rest = rest << 1 | bit;
    if (over || !wide_unsigned_below(rest, rest_high, b, b_high)) {
      rest_high = rest_high - b_high - unsigned_below(rest, b);
      rest = rest - b;
      if (i > 31) high = high | 1 << i - 32;
      else low = low | 1 << i;
    }
    i = i - 1;
  }
  wide_rest = rest;
  wide_rest_high = rest_high;
  return wide_result(low, high);
}
====
int wide_remainder(int a, int a_high, int b, int b_high) {
  wide_quotient(a, a_high, b, b_high);
  return wide_result(wide_rest, wide_rest_high);
}
====
int wide_quotient_signed(int a, int a_high, int b, int b_high) {
  int minus = (a_high ^ b_high) < 0;
  if (a_high < 0) {
    a = wide_negated(a, a_high);
    a_high = wide_high;
  }
  if (b_high < 0) {
    b = wide_negated(b, b_high);
    b_high = wide_high;
  }
  int low = wide_quotient(a, a_high, b, b_high);
  if (minus) return wide_negated(low, wide_high);
  return low;
}
====
int wide_remainder_signed(int a, int a_high, int b, int b_high) {
  int minus = a_high < 0;
  wide_quotient_signed(a, a_high, b, b_high);
  if (minus) return wide_negated(wide_rest, wide_rest_high);
  return wide_result(wide_rest, wide_rest_high);
}
====
int wide_left(int a, int a_high, int n) {
  n = n & 63;
  if (n == 0) return wide_result(a, a_high);
  if (n > 31) return wide_result(0, a << n - 32);
  return wide_result(a << n, a_high << n | unsigned_shift(a, 32 - n));
}
====
int wide_right(int a, int a_high, int n) {
  n = n & 63;
  if (n == 0) return wide_result(a, a_high);
  if (n > 31) return wide_result(a_high >> n - 32, a_high >> 31);
  return wide_result(unsigned_shift(a, n) | a_high << 32 - n, a_high >> n);
}
====
int wide_unsigned_right(int a, int a_high, int n) {
  n = n & 63;
  if (n == 0) return wide_result(a, a_high);
  if (n > 31) return wide_result(unsigned_shift(a_high, n - 32), 0);
  return wide_result(unsigned_shift(a, n) | a_high << 32 - n, unsigned_shift(a_high, n));
}
====
int count_wide_digits(int a, int a_high, int base) {
  int count = 1;
  a = wide_quotient(a, a_high, base, 0);
  while (a | wide_high) {
    count = count + 1;
    a = wide_quotient(a, wide_high, base, 0);
  }
  return count;
}
====
void print_wide_digits(int a, int a_high, int base, int ten) {
  int rest = wide_quotient(a, a_high, base, 0);
  int digit = wide_rest;
  if (rest | wide_high) print_wide_digits(rest, wide_high, base, ten);
  if (digit < 10) putchar('0' + digit);
  else putchar(ten + digit - 10);
}
====
/* Prints a number of 64 bits as print_number prints one of 32. */
int print_wide(int a, int a_high, int base, int flags, int width, int precision) {
  int sign = 0;
  if (flags & 64) {
    if (a_high < 0) {
      sign = '-';
      a = wide_negated(a, a_high);
      a_high = wide_high;
    } else if (flags & 4) sign = '+';
    else if (flags & 8) sign = ' ';
  }
  if (width < 0) {
    flags = flags | 1;
    width = -width;
  }
  int some = (a | a_high) != 0;
  int digits = count_wide_digits(a, a_high, base);
  if (precision == 0 && !some) digits = 0;
  int zeros = 0;
  if (precision > digits) zeros = precision - digits;
  int prefix = 0;
  if ((flags & 16) && some && base == 16) prefix = 2;
  if ((flags & 16) && base == 8 && zeros == 0 && (some || digits == 0)) zeros = 1;
  int length = digits + zeros + prefix + (sign != 0);
  if ((flags & 3) == 2 && precision < 0 && width > length) {
    zeros = zeros + width - length;
    length = width;
  }
  if (!(flags & 1)) print_many(' ', width - length);
  if (sign) putchar(sign);
  int ten = 'a';
  if (flags & 32) ten = 'A';
  if (prefix) {
    putchar('0');
    putchar(ten + 23);
  }
  print_many('0', zeros);
  if (digits) print_wide_digits(a, a_high, base, ten);
  if (flags & 1) print_many(' ', width - length);
  if (width > length) return width;
  return length;
}
====
/* Prints a number and returns how many bytes it took. */
int print_int(int n) {
  int count = 1;
  if (n < 0) {
    putchar('-');
    if (n < -9) count = print_int(-(n / 10)) + 1;
    putchar('0' - n % 10);
    return count + 1;
  }
  if (n > 9) count = print_int(n / 10) + 1;
  putchar('0' + n % 10);
  return count;
}
====
/* Prints the digits of a number without a sign, in a base up to 16, from the letter `ten` on for 10 and above. */
int print_digits(int n, int base, int ten) {
  int rest = unsigned_quotient(n, base);
  int digit = n - rest * base;
  int count = 1;
  if (rest) count = print_digits(rest, base, ten) + 1;
  if (digit < 10) putchar('0' + digit);
  else putchar(ten + digit - 10);
  return count;
}
====
int print_many(int c, int count) {
  int i = 0;
  while (i < count) {
    putchar(c);
    i = i + 1;
  }
  return i;
}
====
int count_digits(int n, int base) {
  int count = 1;
  n = unsigned_quotient(n, base);
  while (n) {
    count = count + 1;
    n = n / base;
  }
  return count;
}
====
/* Prints a number as printf does. Of the flags 1 is `-`, 2 is `0`, 4 is `+`, 8 is a space, 16 is `#`, 32 are capitals, 64 is a sign; the
   precision is -1 where there is none. */
int print_number(int n, int base, int flags, int width, int precision) {
  int sign = 0;
  if (flags & 64) {
    if (n < 0) {
      sign = '-';
      n = -n;
    } else if (flags & 4) sign = '+';
    else if (flags & 8) sign = ' ';
  }
  if (width < 0) {
    flags = flags | 1;
    width = -width;
  }
  int digits = count_digits(n, base);
  if (precision == 0 && n == 0) digits = 0;
  int zeros = 0;
  if (precision > digits) zeros = precision - digits;
  int prefix = 0;
  if ((flags & 16) && n != 0 && base == 16) prefix = 2;
  if ((flags & 16) && base == 8 && zeros == 0 && (n != 0 || digits == 0)) zeros = 1;
  int length = digits + zeros + prefix + (sign != 0);
  if ((flags & 3) == 2 && precision < 0 && width > length) {
    zeros = zeros + width - length;
    length = width;
  }
  if (!(flags & 1)) print_many(' ', width - length);
  if (sign) putchar(sign);
  int ten = 'a';
  if (flags & 32) ten = 'A';
  if (prefix) {
    putchar('0');
    putchar(ten + 23);
  }
  print_many('0', zeros);
  if (digits) print_digits(n, base, ten);
  if (flags & 1) print_many(' ', width - length);
  if (width > length) return width;
  return length;
}
====
/* Prints a text up to its zero and returns how many bytes it took. */
int print_text(char ?s) {
  int i = 0;
  while (s[i]) {
    putchar(s[i]);
    i = i + 1;
  }
  return i;
}
====
/* Prints a text in a field; of the flags 1 is `-`, and the precision is -1 where there is none. */
int print_field(char ?s, int flags, int width, int precision) {
  int length = 0;
  while (length != precision && s[length]) length = length + 1;
  if (width < 0) {
    flags = flags | 1;
    width = -width;
  }
  if (!(flags & 1)) print_many(' ', width - length);
  int i = 0;
  while (i < length) {
    putchar(s[i]);
    i = i + 1;
  }
  if (flags & 1) print_many(' ', width - length);
  if (width > length) return width;
  return length;
}
====
/* Prints the four bytes of a word. */
void print_word(int w) {
  putchar(w >> 24);
  putchar(w >> 16);
  putchar(w >> 8);
  putchar(w);
}
====
/* Stores the four bytes of a word in a text, as far as it goes. */
void put_word(char ?s, int at, int w) {
  int i = 0;
  while (i < 4 && i < numelts(s + at)) {
    s[at + i] = w >> 24 - 8 * i;
    i = i + 1;
  }
}
====
char ?format_rest = NULL;
int format_count = 0;
int format_flags = 0;
int format_width = 0;
int format_precision = 0;
int format_short = 0;
int format_star = 0;
int format_found = 0;

/* Begins a format that only the run knows; each argument is then printed by its conversion. */
void begin_format(char ?`H format) {
  format_rest = format;
  format_count = 0;
  format_star = 0;
  format_found = 0;
}
====
int format_number(void) {
  int n = 0;
  while (*format_rest >= '0' && *format_rest <= '9') {
    n = n * 10 + (*format_rest - '0');
    format_rest = format_rest + 1;
  }
  return n;
}
====
int format_flag(int c) {
  if (c == '-') return 1;
  if (c == '0') return 2;
  if (c == '+') return 4;
  if (c == ' ') return 8;
  if (c == '#') return 16;
  return 0;
}
====
/* Prints up to the next conversion, which it reads but for its letter; returns 0 where the format ends first. */
int find_conversion(void) {
  if (format_found) return 1;
  while (*format_rest && (*format_rest != '%' || format_rest[1] == '%')) {
    if (*format_rest == '%') format_rest = format_rest + 1;
    putchar(*format_rest);
    format_count = format_count + 1;
    format_rest = format_rest + 1;
  }
  if (!*format_rest) return 0;
  format_found = 1;
  format_rest = format_rest + 1;
  format_flags = 0;
  while (format_flag(*format_rest)) {
    format_flags = format_flags | format_flag(*format_rest);
    format_rest = format_rest + 1;
  }
  format_precision = -1;
  format_short = 0;
  format_width = format_number();
  if (*format_rest == '*') {
    format_rest = format_rest + 1;
    format_star = 1;
  } else end_conversion();
  return 1;
}
====
void end_conversion(void) {
  if (*format_rest == '.') {
    format_rest = format_rest + 1;
    if (*format_rest == '*') {
      format_rest = format_rest + 1;
      format_star = 2;
      return;
    }
    format_precision = format_number();
  }
  while (*format_rest == 'h' || *format_rest == 'l' || *format_rest == 'z' || *format_rest == 't') {
    if (*format_rest == 'h') format_short = format_short + 1;
    format_rest = format_rest + 1;
  }
}
====
int format_base(int letter) {
  if (letter == 'o') return 8;
  if (letter == 'x' || letter == 'X') return 16;
  return 10;
}
====
void print_next_int(int n) {
  if (format_star == 1) {
    format_width = n;
    format_star = 0;
    end_conversion();
    return;
  }
  if (format_star == 2) {
    format_precision = n;
    format_star = 0;
    end_conversion();
    return;
  }
  if (!find_conversion()) return;
  if (format_star) {
    print_next_int(n);
    return;
  }
  print_by_letter(n);
}
====
void print_by_letter(int n) {
  int letter = *format_rest;
  format_found = 0;
  format_rest = format_rest + 1;
  if (letter == 'c') {
    if (!(format_flags & 1)) print_many(' ', format_width - 1);
    putchar(n);
    if (format_flags & 1) print_many(' ', format_width - 1);
    if (format_width < 1) format_width = 1;
    format_count = format_count + format_width;
    return;
  }
  int is_signed = letter == 'd' || letter == 'i';
  if (!is_signed && letter != 'u' && letter != 'x' && letter != 'X' && letter != 'o') throw new Null_Exception;
  int unused = 0;
  if (format_short) unused = 32 - 16 / format_short;
  n = n << unused;
  if (is_signed) n = n >> unused;
  else n = unsigned_shift(n, unused);
  if (is_signed) format_flags = format_flags | 64;
  if (letter == 'X') format_flags = format_flags | 32;
  format_count = format_count + print_number(n, format_base(letter), format_flags, format_width, format_precision);
}
====
void print_next_text(char ?s) {
  if (format_star || !find_conversion()) return;
  if (*format_rest != 's') throw new Null_Exception;
  format_found = 0;
  format_rest = format_rest + 1;
  format_count = format_count + print_field(s, format_flags, format_width, format_precision);
}
====
/* Prints the rest of the format, and returns how many bytes were printed. */
int end_format(void) {
  if (find_conversion()) throw new Null_Exception;
  format_rest = NULL;
  return format_count;
}
====
int text_length(char ?s) {
  int n = 0;
  while (s[n]) n = n + 1;
  return n;
}
====
int text_length_within(char ?s, int most) {
  int n = 0;
  while (n != most && s[n]) n = n + 1;
  return n;
}
====
void copy_text(char ?to, char ?from) {
  int i = 0;
  while (from[i]) {
    to[i] = from[i];
    i = i + 1;
  }
  to[i] = 0;
}
====
void copy_text_within(char ?to, char ?from, int most) {
  int i = 0;
  while (i != most && from[i]) {
    to[i] = from[i];
    i = i + 1;
  }
  while (i != most) {
    to[i] = 0;
    i = i + 1;
  }
}
====
void append_text(char ?to, char ?from) {
  copy_text(to + text_length(to), from);
}
====
void append_text_within(char ?to, char ?from, int most) {
  int at = text_length(to);
  int i = 0;
  while (i != most && from[i]) {
    to[at + i] = from[i];
    i = i + 1;
  }
  to[at + i] = 0;
}
====
int compare_texts(char ?a, char ?b) {
  int i = 0;
  while (a[i] && a[i] == b[i]) i = i + 1;
  return (a[i] > b[i]) - (a[i] < b[i]);
}
====
int compare_texts_within(char ?a, char ?b, int most) {
  int i = 0;
  while (i != most && a[i] && a[i] == b[i]) i = i + 1;
  if (i == most) return 0;
  return (a[i] > b[i]) - (a[i] < b[i]);
}
====
int compare_small(char ?a, char ?b, int most) {
  int i = 0;
  while (i != most && a[i] && small(a[i]) == small(b[i])) i = i + 1;
  if (i == most) return 0;
  return small(a[i]) - small(b[i]);
}
====
/* Where the byte c is in a text; NULL where it is not. */
char ?`r find_byte(char ?`r s, int c) {
  while (*s != (c & 255)) {
    if (!*s) return NULL;
    s = s + 1;
  }
  return s;
}
====
char ?`r find_last_byte(char ?`r s, int c) {
  char ?`r found = NULL;
  while (1) {
    if (*s == (c & 255)) found = s;
    if (!*s) return found;
    s = s + 1;
  }
  return found;
}
====
char ?`r find_text(char ?`r s, char ?wanted) {
  while (1) {
    int i = 0;
    while (wanted[i] && s[i] == wanted[i]) i = i + 1;
    if (!wanted[i]) return s;
    if (!*s) return NULL;
    s = s + 1;
  }
  return NULL;
}
====
int is_among(int c, char ?set) {
  int i = 0;
  while (set[i]) {
    if (set[i] == c) return 1;
    i = i + 1;
  }
  return 0;
}
====
int span_of(char ?s, char ?set) {
  int n = 0;
  while (s[n] && is_among(s[n], set)) n = n + 1;
  return n;
}
====
int span_without(char ?s, char ?set) {
  int n = 0;
  while (s[n] && !is_among(s[n], set)) n = n + 1;
  return n;
}
====
char ?`r find_among(char ?`r s, char ?set) {
  while (*s) {
    if (is_among(*s, set)) return s;
    s = s + 1;
  }
  return NULL;
}
====
char ?text_rest = NULL;

char ?next_word(char ?`H s, char ?set) {
  if (s == NULL) s = text_rest;
  if (s == NULL) return NULL;
  s = s + span_of(s, set);
  if (!*s) {
    text_rest = NULL;
    return NULL;
  }
  text_rest = s + span_without(s, set);
  if (*text_rest) {
    *text_rest = 0;
    text_rest = text_rest + 1;
  }
  return s;
}
====
char ?new_text_within(char ?s, int most) {
  int length = text_length_within(s, most);
  char ?copy = new {for i < length + 1 : char(0)};
  int i = 0;
  while (i < length) {
    copy[i] = s[i];
    i = i + 1;
  }
  return copy;
}
====
char ?new_text(char ?s) {
  char ?copy = new {for i < text_length(s) + 1 : char(0)};
  copy_text(copy, s);
  return copy;
}
====
int compare_bytes(char ?a, char ?b, int count) {
  int i = 0;
  while (i < count) {
    if (a[i] != b[i]) return a[i] - b[i];
    i = i + 1;
  }
  return 0;
}
====
char ?`r find_within(char ?`r s, int c, int count) {
  int i = 0;
  while (i < count) {
    if (s[i] == (c & 255)) return s + i;
    i = i + 1;
  }
  return NULL;
}
====
int is_digit(int c) {
  return c >= '0' && c <= '9';
}
====
int is_capital(int c) {
  return c >= 'A' && c <= 'Z';
}
====
int is_small(int c) {
  return c >= 'a' && c <= 'z';
}
====
int is_letter(int c) {
  return is_capital(c) || is_small(c);
}
====
int is_letter_or_digit(int c) {
  return is_letter(c) || is_digit(c);
}
====
int is_space(int c) {
  return c == ' ' || c >= 9 && c <= 13;
}
====
int is_blank(int c) {
  return c == ' ' || c == '\t';
}
====
int is_hexadecimal(int c) {
  return is_digit(c) || c >= 'a' && c <= 'f' || c >= 'A' && c <= 'F';
}
====
int is_printed(int c) {
  return c >= ' ' && c < 127;
}
====
int is_graphic(int c) {
  return c > ' ' && c < 127;
}
====
int is_sign(int c) {
  return is_graphic(c) && !is_letter_or_digit(c);
}
====
int is_control(int c) {
  return c >= 0 && c < ' ' || c == 127;
}
====
int large(int c) {
  if (is_small(c)) return c - 'a' + 'A';
  return c;
}
====
int small(int c) {
  if (is_capital(c)) return c - 'A' + 'a';
  return c;
}
====
int absolute(int n) {
  if (n < 0) return -n;
  return n;
}
====
int number_in(char ?s) {
  int i = 0;
  int n = 0;
  int minus = 0;
  while (is_space(s[i])) i = i + 1;
  if (s[i] == '-' || s[i] == '+') {
    minus = s[i] == '-';
    i = i + 1;
  }
  while (is_digit(s[i])) {
    n = n * 10 + (s[i] - '0');
    i = i + 1;
  }
  if (minus) return -n;
  return n;
}
====
int digit_of(int c) {
  if (is_digit(c)) return c - '0';
  if (is_letter(c)) return small(c) - 'a' + 10;
  return 99;
}
====
int number_end = 0;

/* What strtol reads at the beginning of a text, or strtoul if there is no `sign`; both end at their greatest value. */
int number_in_base(char ?s, int base, int sign) {
  int i = 0;
  int n = 0;
  int over = 0;
  number_end = 0;
  while (is_space(s[i])) i = i + 1;
  int minus = s[i] == '-';
  if (minus || s[i] == '+') i = i + 1;
  if ((base == 0 || base == 16) && s[i] == '0' && small(s[i + 1]) == 'x' && digit_of(s[i + 2]) < 16) {
    i = i + 2;
    base = 16;
  } else if (base == 0 && s[i] == '0') base = 8;
  else if (base == 0) base = 10;
  int most = unsigned_quotient(-1, base);
  while (digit_of(s[i]) < base) {
    int next = n * base + digit_of(s[i]);
    if (unsigned_below(most, n) || n == most && unsigned_below(next, n)) over = 1;
    n = next;
    i = i + 1;
    number_end = i;
  }
  if (sign && (over || n < 0 && (!minus || n != -2147483647 - 1))) {
    if (minus) return -2147483647 - 1;
    return 2147483647;
  }
  if (over) return -1;
  if (minus) return -n;
  return n;
}
====
int wide_absolute(int a, int a_high) {
  if (a_high < 0) return wide_negated(a, a_high);
  return wide_result(a, a_high);
}
====
/* The same for numbers of 64 bits. */
int wide_in_base(char ?s, int base, int sign) {
  int i = 0;
  int n = 0;
  int high = 0;
  int over = 0;
  number_end = 0;
  while (is_space(s[i])) i = i + 1;
  int minus = s[i] == '-';
  if (minus || s[i] == '+') i = i + 1;
  if ((base == 0 || base == 16) && s[i] == '0' && small(s[i + 1]) == 'x' && digit_of(s[i + 2]) < 16) {
    i = i + 2;
    base = 16;
  } else if (base == 0 && s[i] == '0') base = 8;
  else if (base == 0) base = 10;
  while (digit_of(s[i]) < base) {
    int left = wide_product(high, 0, base, 0);
    if (wide_high) over = 1;
    int right = wide_product(n, 0, base, 0);
    n = right + digit_of(s[i]);
    high = left + wide_high + unsigned_below(n, right);
    if (unsigned_below(high, left)) over = 1;
    i = i + 1;
    number_end = i;
  }
  if (sign && (over || high < 0 && (!minus || n != 0 || high != -2147483647 - 1))) {
    if (minus) return wide_result(0, -2147483647 - 1);
    return wide_result(-1, 2147483647);
  }
  if (over) return wide_result(-1, -1);
  if (minus) return wide_negated(n, high);
  return wide_result(n, high);
}
====
int digits_end(void) {
  return number_end;
}
====
char ?scanned_text = NULL;
int input_byte = -2;

/* Begins to read a text in place of the input, as sscanf does. */
void scan_from(char ?`H s) {
  scanned_text = s;
  input_byte = kept_byte;
  kept_byte = -2;
}
====
void scan_done(void) {
  scanned_text = NULL;
  kept_byte = input_byte;
}
====
/* The next byte of what is scanned. */
int source_byte(void) {
  if (scanned_text == NULL) return getchar();
  int c = *scanned_text;
  if (c == 0) return -1;
  scanned_text = scanned_text + 1;
  return c;
}
====
int kept_byte = -2;
int input_ended = 0;

/* The next byte of the input, also one that was put back. */
int next_byte(void) {
  int c = kept_byte;
  if (c == -2) {
    c = getchar();
    if (c == -1) input_ended = 1;
    return c;
  }
  if (c != -1) kept_byte = -2;
  return c;
}
====
int put_back(int c) {
  if (c != -1) {
    next_byte_is(c & 255);
    input_ended = 0;
  }
  return c;
}
====
/* Whether a read came to the end of the input. */
int end_seen(void) {
  return input_ended;
}
====
void next_byte_is(int c) {
  kept_byte = c;
}
====
int skip_spaces(void) {
  int c = next_byte();
  while (is_space(c)) c = next_byte();
  return c;
}
====
/* Reads a number into n; returns 1, 0 where there is none, and -1 at the end of the input. */
int scan_int(int *n, int base, int width) {
  int c = skip_spaces();
  int value = 0;
  int digits = 0;
  int minus = c == '-';
  if (c == -1) return -1;
  if ((c == '-' || c == '+') && width != 1) {
    c = next_byte();
    width = width - 1;
  }
  if ((base == 0 || base == 16) && c == '0' && width != 0) {
    c = next_byte();
    width = width - 1;
    digits = 1;
    if (small(c) == 'x' && width != 0) {
      c = next_byte();
      width = width - 1;
      digits = 0;
      base = 16;
    } else if (base == 0) base = 8;
  }
  if (base == 0) base = 10;
  while (width != 0 && digit_of(c) < base) {
    value = value * base + digit_of(c);
    digits = digits + 1;
    width = width - 1;
    c = next_byte();
  }
  next_byte_is(c);
  if (!digits) return 0;
  *n = value;
  if (minus) *n = -value;
  return 1;
}
====
int scan_bytes(char ?s, int width) {
  int i = 0;
  while (i < width) {
    int c = next_byte();
    if (c == -1) return -1;
    s[i] = c;
    i = i + 1;
  }
  return 1;
}
====
int scan_word(char ?s, int width) {
  int c = skip_spaces();
  int i = 0;
  if (c == -1) return -1;
  while (width != i && c != -1 && !is_space(c)) {
    s[i] = c;
    i = i + 1;
    c = next_byte();
  }
  next_byte_is(c);
  s[i] = 0;
  return 1;
}
====
/* Whether the input goes on with c, which is then read; a space stands for any number of spaces. */
int scan_text(int wanted) {
  if (is_space(wanted)) {
    next_byte_is(skip_spaces());
    return 1;
  }
  int c = next_byte();
  if (c == wanted) return 1;
  next_byte_is(c);
  return 0;
}
====
int read_line(char ?s, int size) {
  int i = 0;
  int c = 0;
  while (i < size - 1 && c != '\n') {
    c = getchar();
    if (c == -1) {
      if (i == 0) return 0;
      c = '\n';
    } else {
      s[i] = c;
      i = i + 1;
    }
  }
  s[i] = 0;
  return 1;
}
====
char ?printed_to = NULL;
int printed_at = 0;
int printed_most = 0;

/* Prints a byte, or stores it where sprintf does. */
int put_byte(int c) {
  if (printed_to == NULL) return putchar(c);
  if (printed_at < printed_most) printed_to[printed_at] = c;
  printed_at = printed_at + 1;
  return c & 255;
}
====
void print_into(char ?`H s, int size) {
  printed_to = s;
  printed_at = 0;
  printed_most = size - 1;
}
====
/* Ends the text that was printed into, and returns its length. */
int printed(void) {
  if (printed_at < printed_most) printed_to[printed_at] = 0;
  else if (printed_most >= 0) printed_to[printed_most] = 0;
  printed_to = NULL;
  return printed_at;
}
====
int ?random_state = NULL;
int random_at = 0;

/* As glibc has it. */
void random_seed(int seed) {
  int i = 1;
  if (seed == 0) seed = 1;
  random_state = new {for k < 34 : seed};
  while (i < 31) {
    int high = random_state[i - 1] / 127773;
    int word = 16807 * (random_state[i - 1] % 127773) - 2836 * high;
    if (word < 0) word = word + 2147483647;
    random_state[i] = word;
    i = i + 1;
  }
  while (i < 34) {
    random_state[i] = random_state[i - 31];
    i = i + 1;
  }
  random_at = 0;
  i = 0;
  while (i < 310) {
    random_next();
    i = i + 1;
  }
}
====
int random_next(void) {
  if (random_state == NULL) random_seed(1);
  int oldest = (random_at + 3) % 34;
  int word = random_state[oldest] + random_state[(random_at + 31) % 34];
  random_state[random_at % 34] = word;
  random_at = (random_at + 1) % 34;
  return word >> 1 & 2147483647;
}
====
int first_bit(int n) {
  int i = 1;
  if (n == 0) return 0;
  while (!(n & 1)) {
    n = n >> 1;
    i = i + 1;
  }
  return i;
}
====
int zeros_before(int n) {
  int i = 0;
  while (i < 32 && n >= 0) {
    n = n << 1;
    i = i + 1;
  }
  return i;
}
====
int count_bits(int n) {
  int count = 0;
  while (n) {
    n = n & n - 1;
    count = count + 1;
  }
  return count;
}
====
int swap_bytes(int n) {
  return (n & 255) << 24 | (n & 65280) << 8 | n >> 8 & 65280 | n >> 24 & 255;
}
'''.split("===="):
    if piece.strip().startswith(STATES):
        HELPERS[re.findall(r"^(?:int|void|char)[^(;\n]*?(\w+)\(", piece, re.M)[0]] = piece.strip() + "\n"
    else:
        helper(piece.strip())


def needed(names):
    """The helpers with all that they call, in the order of the table."""
    found, work = set(), list(names)
    while work:
        name = work.pop()
        if name in found:
            continue
        found.add(name)
        if name in OWNERS:
            work.append(OWNERS[name])
        if name in HELPERS:
            work += [word for word in re.findall(r"\w+", HELPERS[name]) if word in HELPERS or word in OWNERS]
    work = {OWNERS.get(name, name) for name in found}
    return [name for name in HELPERS if name in work]


OWNERS = {name: "begin_format" for name in ("format_rest", "format_count", "format_flags", "format_width", "format_precision",
                                            "format_short", "format_star", "format_found")}
OWNERS |= {"wide_high": "wide_result", "wide_rest": "wide_quotient", "wide_rest_high": "wide_quotient",
           "number_end": "number_in_base", "scanned_text": "scan_from", "input_byte": "scan_from", "text_rest": "next_word",
           "kept_byte": "next_byte", "input_ended": "next_byte", "printed_to": "put_byte", "printed_at": "put_byte",
           "printed_most": "put_byte", "random_state": "random_seed", "random_at": "random_seed"}
NAMES = set(HELPERS) | set(OWNERS)
