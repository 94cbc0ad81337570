// Words that are sorted and joined, and numbers in words: a small C program over texts in memory. `words.sh` compiles it.

#define EXPORT(name) __attribute__((export_name(#name)))
#define COUNT(list) (sizeof(list) / sizeof((list)[0]))

typedef int compare(const char *, const char *);

static const char *words[] = {"redstone", "tick", "furnace", "axe", "beacon", "hopper", "ice"};
static char text[64];
static unsigned length;

static int by_letters(const char *first, const char *second) {
  while (*first && *first == *second) first++, second++;
  return *first - *second;
}

static int by_length(const char *first, const char *second) {
  while (*first && *second) first++, second++;
  return *first - *second;
}

static compare *const orders[] = {by_letters, by_length};

// Traps where the text is full.
static void put(char letter) {
  if (length == sizeof text) __builtin_trap();
  text[length++] = letter;
}

static void put_all(const char *letters) {
  while (*letters) put(*letters++);
}

static void put_digits(unsigned number) {
  if (number >= 10) put_digits(number / 10);
  put((char)('0' + number % 10));
}

// Where the text begins in memory.
EXPORT(address) const char *address(void) { return text; }

// Sorts the words by the order of this number, so that equal ones stay as they stand. The orders are called through a table.
EXPORT(sort) void sort(unsigned order) {
  for (unsigned i = 1; i < COUNT(words); i++) {
    const char *word = words[i];
    unsigned j = i;
    for (; j > 0 && orders[order & 1](words[j - 1], word) > 0; j--) words[j] = words[j - 1];
    words[j] = word;
  }
}

// The words in the text, a space between them. The length of the text is answered, here and below.
EXPORT(join) unsigned join(void) {
  length = 0;
  for (unsigned i = 0; i < COUNT(words); i++) {
    if (i > 0) put(' ');
    put_all(words[i]);
  }
  return length;
}

EXPORT(decimal) unsigned decimal(int number) {
  length = 0;
  if (number < 0) put('-');
  put_digits(number < 0 ? 0u - (unsigned)number : (unsigned)number);
  return length;
}

EXPORT(roman) unsigned roman(unsigned number) {
  static const struct {
    unsigned short value;
    char letters[3];
  } numerals[] = {{1000, "M"}, {900, "CM"}, {500, "D"}, {400, "CD"}, {100, "C"}, {90, "XC"}, {50, "L"},
                  {40, "XL"},  {10, "X"},   {9, "IX"},  {5, "V"},    {4, "IV"},  {1, "I"}};
  length = 0;
  for (unsigned k = 0; k < COUNT(numerals); k++)
    for (; number >= numerals[k].value; number -= numerals[k].value) put_all(numerals[k].letters);
  return length;
}
