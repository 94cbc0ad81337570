// Texts as bytes with a zero behind them: lengths, searches, words, upper case, Caesar, numbers in digits, palindromes.
#define TEXT_SIZE 512
#include "pack.h"

// call clear 0
// call add 3
// call add 1
// call text_size
// call count_words
// call find 3
// call upper
// call caesar 3
// call hash
// call reverse
// call hash
// call number -90210
// call roman 1987
// call palindrome 1
// call palindrome 2
// call compare 0 2
// call anagram 4 5
// call vowels
// call replace 111 48
// call add 99
// call add 0
// call add 2
// call count_words
// call upper
// call caesar 20
// call reverse
// call hash

static const char *const texts[] = {
    "the quick brown fox jumps over the lazy dog", "never odd or even", "pack my box with five dozen jugs, please",
    "box with", "listen", "silent"};

static const char *text_at(unsigned i) {
  REQUIRE(i < sizeof texts / sizeof *texts);
  return texts[i];
}

static unsigned length_of(const char *of) {
  const char *end = of;
  while (*end) end++;
  return (unsigned)(end - of);
}

EXPORT(clear) void clear(int unused) { text_length = (unsigned)unused; }

EXPORT(add) void add(unsigned i) {
  if (text_length) put(' ');
  put_text(text_at(i));
}

EXPORT(count_words) int count_words(void) {
  int count = 0, inside = 0;
  for (unsigned i = 0; i < text_length; i++) {
    int is_letter = text[i] >= 'a' && text[i] <= 'z';
    count += is_letter && !inside;
    inside = is_letter;
  }
  return count;
}

EXPORT(find) int find(unsigned i) {
  const char *wanted = text_at(i);
  unsigned count = length_of(wanted);
  for (unsigned at = 0; at + count <= text_length; at++) {
    unsigned k = 0;
    while (k < count && text[at + k] == wanted[k]) k++;
    if (k == count) return (int)at;
  }
  return -1;
}

EXPORT(upper) void upper(void) {
  for (unsigned i = 0; i < text_length; i++)
    if (i == 0 || text[i - 1] == ' ') text[i] = (char)(text[i] >= 'a' && text[i] <= 'z' ? text[i] - 32 : text[i]);
}

EXPORT(caesar) void caesar(int by) {
  for (unsigned i = 0; i < text_length; i++) {
    char c = text[i];
    if (c >= 'a' && c <= 'z') c = (char)('a' + (c - 'a' + by) % 26);
    else if (c >= 'A' && c <= 'Z') c = (char)('A' + (c - 'A' + by) % 26);
    text[i] = c;
  }
}

EXPORT(hash) unsigned hash(void) {
  unsigned sum = 5381;
  for (unsigned i = 0; i < text_length; i++) sum = sum * 33 + (byte)text[i];
  return sum;
}

EXPORT(reverse) void reverse(void) {
  for (unsigned i = 0, j = text_length - 1; i < j; i++, j--) {
    char kept = text[i];
    text[i] = text[j];
    text[j] = kept;
  }
}

EXPORT(number) unsigned number_in_digits(int value) {
  text_length = 0;
  put_int(value);
  return text_length;
}

EXPORT(roman) unsigned roman(int value) {
  static const short steps[] = {1000, 900, 500, 400, 100, 90, 50, 40, 10, 9, 5, 4, 1};
  static const char names[][3] = {"M", "CM", "D", "CD", "C", "XC", "L", "XL", "X", "IX", "V", "IV", "I"};
  text_length = 0;
  for (int i = 0; i < 13; i++)
    for (; value >= steps[i]; value -= steps[i]) put_text(names[i]);
  return text_length;
}

EXPORT(palindrome) int palindrome(unsigned i) {
  const char *left = text_at(i), *right = left + length_of(left) - 1;
  while (left < right) {
    if (*left == ' ') left++;
    else if (*right == ' ') right--;
    else if (*left++ != *right--) return 0;
  }
  return 1;
}

EXPORT(compare) int compare(unsigned i, unsigned j) {
  const char *a = text_at(i), *b = text_at(j);
  while (*a && *a == *b) a++, b++;
  return (byte)*a - (byte)*b;
}

EXPORT(anagram) int anagram(unsigned i, unsigned j) {
  signed char counts[26] = {0};
  for (const char *at = text_at(i); *at; at++) counts[*at - 'a']++;
  for (const char *at = text_at(j); *at; at++) counts[*at - 'a']--;
  for (int k = 0; k < 26; k++)
    if (counts[k]) return 0;
  return 1;
}

EXPORT(vowels) int vowels(void) {
  int count = 0;
  text_length = 0;
  put_text(text_at(2));
  for (unsigned i = 0; i < text_length; i++) switch (text[i]) {
      case 'a':
      case 'e':
      case 'i':
      case 'o':
      case 'u': count++;
    }
  return count;
}

EXPORT(replace) int replace(int from, int to) {
  int count = 0;
  for (unsigned i = 0; i < text_length; i++)
    if (text[i] == from) text[i] = (char)to, count++;
  return count;
}
