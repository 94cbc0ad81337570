// Sorting of ints: quick, heap, merge, insertion, by digits; and the middle one.
#include "pack.h"

// call fill 16 3
// call quick 16
// call is_sorted 16
// call fill 12 8
// call heap 12
// call is_sorted 12
// call fill 12 11
// call merge 12
// call at 5
// call fill 10 4
// call insertion 10
// call fill 12 13
// call middle 12
// call fill 10 6
// call digits 10
// call fill 40 3
// call quick 40
// call fill 32 8
// call heap 24
// call merge 24
// call digits 30

static int numbers[128], others[128];

EXPORT(fill) void fill(unsigned count, unsigned seed) {
  REQUIRE(count <= 128);
  random_seed(seed);
  for (unsigned i = 0; i < count; i++) numbers[i] = (int)random_below(2000) - 1000;
}

EXPORT(at) int at(unsigned i) {
  REQUIRE(i < 128);
  return numbers[i];
}

EXPORT(is_sorted) int is_sorted(int count) {
  for (int i = 1; i < count; i++)
    if (numbers[i - 1] > numbers[i]) return 0;
  return 1;
}

static void swap(int *a, int *b) {
  int kept = *a;
  *a = *b;
  *b = kept;
}

static void quick_between(int *from, int *to) {
  if (to - from < 2) return;
  int pivot = from[(to - from) / 2], *left = from, *right = to - 1;
  while (left <= right) {
    while (*left < pivot) left++;
    while (*right > pivot) right--;
    if (left <= right) swap(left++, right--);
  }
  quick_between(from, right + 1);
  quick_between(left, to);
}

EXPORT(quick) void quick(int count) { quick_between(numbers, numbers + count); }

static void sink(int root, int count) {
  for (int child; (child = 2 * root + 1) < count; root = child) {
    if (child + 1 < count && numbers[child] < numbers[child + 1]) child++;
    if (numbers[root] >= numbers[child]) return;
    swap(&numbers[root], &numbers[child]);
  }
}

EXPORT(heap) void heap(int count) {
  for (int root = count / 2 - 1; root >= 0; root--) sink(root, count);
  for (int last = count - 1; last > 0; last--) {
    swap(&numbers[0], &numbers[last]);
    sink(0, last);
  }
}

// From the bottom up, between two arrays.
EXPORT(merge) void merge(int count) {
  int *from = numbers, *to = others;
  for (int width = 1; width < count; width *= 2) {
    for (int low = 0; low < count; low += 2 * width) {
      int middle = low + width < count ? low + width : count, high = low + 2 * width < count ? low + 2 * width : count;
      int i = low, j = middle;
      for (int k = low; k < high; k++) to[k] = i < middle && (j >= high || from[i] <= from[j]) ? from[i++] : from[j++];
    }
    int *kept = from;
    from = to, to = kept;
  }
  if (from != numbers)
    for (int i = 0; i < count; i++) numbers[i] = from[i];
}

EXPORT(insertion) void insertion(int count) {
  for (int i = 1; i < count; i++) {
    int number = numbers[i], j = i;
    for (; j > 0 && numbers[j - 1] > number; j--) numbers[j] = numbers[j - 1];
    numbers[j] = number;
  }
}

// By four bits at a time, of the numbers above the least one that is made.
EXPORT(digits) void by_digits(int count) {
  for (int shift = 0; shift < 12; shift += 4) {
    int counts[17] = {0};
    for (int i = 0; i < count; i++) counts[((numbers[i] + 1000) >> shift & 15) + 1]++;
    for (int i = 1; i < 17; i++) counts[i] += counts[i - 1];
    for (int i = 0; i < count; i++) others[counts[(numbers[i] + 1000) >> shift & 15]++] = numbers[i];
    for (int i = 0; i < count; i++) numbers[i] = others[i];
  }
}

EXPORT(middle) int middle(int count) {
  int low = 0, high = count - 1, wanted = count / 2;
  while (low < high) {
    int pivot = numbers[wanted], i = low, j = high;
    do {
      while (numbers[i] < pivot) i++;
      while (pivot < numbers[j]) j--;
      if (i <= j) swap(&numbers[i++], &numbers[j--]);
    } while (i <= j);
    if (j < wanted) low = i;
    if (wanted < i) high = j;
  }
  return numbers[wanted];
}
