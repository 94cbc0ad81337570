// Texts that are worked out: terms with brackets, the same with the signs behind, numbers in other bases, dates.
#include "pack.h"

// call value 0
// call behind 3
// call brackets 4
// call value 5
// call base 16 6
// call date 7
// call value 8
// call value 9
// call tokens 1
// call value 2
// call brackets 1
// call value 1
// call convert 3
// call behind 3
// call value 1
// call convert 7
// call tokens 7

static const char *const texts[] = {
    "12+3*(4-1)", "((7+8)*(9-4)-3)/4%11", "2^10-1000/8", "3 4 + 2 * 7 / 15 -", "{[()]()}[", "-(5-8)*-2",
    "1f4c", "2024-02-29", "8/(4-4)", "3+*4"};
static const char *at;

static void open_text(unsigned i) {
  REQUIRE(i < sizeof texts / sizeof *texts);
  at = texts[i];
}

static int is_digit(char c) { return c >= '0' && c <= '9'; }

static int sum(void);

static int number_at(void) {
  int value = 0;
  REQUIRE(is_digit(*at));
  while (is_digit(*at)) value = 10 * value + (*at++ - '0');
  return value;
}

static int factor(void) {
  if (*at == '-') return at++, -factor();
  if (*at != '(') return number_at();
  at++;
  int value = sum();
  REQUIRE(*at == ')');
  at++;
  return value;
}

static int power(void) {
  int base = factor();
  if (*at != '^') return base;
  at++;
  int value = 1;
  for (int exponent = power(); exponent > 0; exponent--) value *= base;
  return value;
}

static int product(void) {
  int value = power();
  for (;;) switch (*at) {
      case '*': at++, value *= power(); break;
      case '/': at++, value /= power(); break;
      case '%': at++, value %= power(); break;
      default: return value;
    }
}

static int sum(void) {
  int value = product();
  while (*at == '+' || *at == '-') value = *at++ == '+' ? value + product() : value - product();
  return value;
}

EXPORT(value) int value(unsigned i) {
  open_text(i);
  int found = sum();
  REQUIRE(!*at);
  return found;
}

typedef int (*operation)(int, int);
static int add(int a, int b) { return a + b; }
static int subtract(int a, int b) { return a - b; }
static int multiply(int a, int b) { return a * b; }
static int divide(int a, int b) { return a / b; }

EXPORT(behind) int behind(unsigned i) {
  static const char signs[] = "+-*/";
  static const operation operations[] = {add, subtract, multiply, divide};
  int stack[8], held = 0;
  for (open_text(i); *at;) {
    if (*at == ' ') at++;
    else if (is_digit(*at)) stack[held++] = number_at();
    else {
      int k = 0;
      while (signs[k] != *at) k++;
      at++, held--;
      stack[held - 1] = operations[k](stack[held - 1], stack[held]);
    }
  }
  return stack[0];
}

EXPORT(brackets) int brackets(unsigned i) {
  char open[8];
  int held = 0;
  for (open_text(i); *at; at++) {
    char c = *at;
    if (c == '(' || c == '[' || c == '{') open[held++] = c;
    else if (c == ')' || c == ']' || c == '}')
      if (!held || open[--held] != (c == ')' ? '(' : c - 2)) return -1;
  }
  return held;
}

EXPORT(base) int base(int of, unsigned i) {
  int found = 0;
  for (open_text(i); *at; at++) found = found * of + (is_digit(*at) ? *at - '0' : *at - 'a' + 10);
  return found;
}

EXPORT(date) int date(unsigned i) {
  open_text(i);
  int year = number_at();
  at++;
  int month = number_at();
  at++;
  return year * 10000 + month * 100 + number_at();
}

// The numbers of a text in the digits of another base, one behind the other.
EXPORT(convert) int convert(unsigned i) {
  int found = 0;
  for (open_text(i); *at;) {
    if (!is_digit(*at)) {
      at++;
      continue;
    }
    char digits[32];
    int count = 0;
    for (int left = number_at() * 111; left > 0; left /= 7) digits[count++] = (char)(left % 7);
    while (count > 0) found = found * 7 + digits[--count];
  }
  return found;
}

EXPORT(tokens) int tokens(unsigned i) {
  int numbers = 0, signs = 0;
  for (open_text(i); *at;) {
    if (is_digit(*at)) numbers += number_at();
    else signs += *at++ & 7;
  }
  return numbers * 100 + signs;
}
