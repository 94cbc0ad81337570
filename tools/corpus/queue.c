// Queues by priority, the shortest ways on a map, lists that are linked, a tree of numbers, and a ring.
#include "pack.h"

// call orders 8 3
// call ways 4 6
// call far 9
// call list 10
// call tree 8 9
// call tree_sum 5 90
// call ring 30
// call josephus 12 3
// call far 64
// call orders 30 4
// call ways 8 8
// call tree 20 5
// call list 24

typedef struct {
  short rank, name;
} order;
static order heap[80];
static int heap_size;

static void add(int rank, int name) {
  int at = heap_size++;
  REQUIRE(heap_size <= 80);
  for (; at > 0 && heap[(at - 1) / 2].rank > rank; at = (at - 1) / 2) heap[at] = heap[(at - 1) / 2];
  heap[at].rank = (short)rank, heap[at].name = (short)name;
}

static order take(void) {
  order first = heap[0], last = heap[--heap_size];
  int at = 0;
  for (int child; (child = 2 * at + 1) < heap_size; at = child) {
    child += child + 1 < heap_size && heap[child + 1].rank < heap[child].rank;
    if (last.rank <= heap[child].rank) break;
    heap[at] = heap[child];
  }
  heap[at] = last;
  return first;
}

EXPORT(orders) int orders(int count, unsigned seed) {
  int sum = 0;
  heap_size = 0;
  random_seed(seed);
  for (int i = 0; i < count; i++) add((int)random_below(100), i);
  for (int i = 1; heap_size > 0; i++) sum += take().name * i;
  return sum;
}

static byte cost[64];
static short far_to[64];

// From a corner of a map whose fields cost from 1 to 9, to the corner over against it.
EXPORT(ways) int ways(int side, unsigned seed) {
  REQUIRE(side <= 8);
  heap_size = 0;
  random_seed(seed);
  for (int i = 0; i < side * side; i++) cost[i] = (byte)(1 + random_below(9)), far_to[i] = 9999;
  far_to[0] = 0;
  add(0, 0);
  while (heap_size > 0) {
    order best = take();
    int at = best.name;
    if (at == side * side - 1) break;
    if (best.rank > far_to[at]) continue;
    for (int k = 0; k < 4; k++) {
      int x = at % side + (k == 0) - (k == 1), y = at / side + (k == 2) - (k == 3);
      if (x < 0 || y < 0 || x >= side || y >= side) continue;
      int next = side * y + x, sum = best.rank + cost[next];
      if (sum < far_to[next]) far_to[next] = (short)sum, add(sum, next);
    }
  }
  return far_to[side * side - 1];
}

EXPORT(far) int far(unsigned at) {
  REQUIRE(at < 64);
  return far_to[at];
}

typedef struct link {
  struct link *next, *other;
  int value;
} link;
static link links[64];
static int links_used;

static link *made(int value) {
  REQUIRE(links_used < 64);
  link *at = &links[links_used++];
  at->next = at->other = 0;
  at->value = value;
  return at;
}

// A list that is kept in order, and then turned round.
EXPORT(list) int list(int count) {
  link *first = 0, *turned = 0;
  int sum = 0;
  links_used = 0;
  for (int i = 0; i < count; i++) {
    link *one = made(i * 37 % 23), **at = &first;
    while (*at && (*at)->value < one->value) at = &(*at)->next;
    one->next = *at, *at = one;
  }
  while (first) {
    link *next = first->next;
    first->next = turned, turned = first, first = next;
  }
  for (int i = 1; turned; turned = turned->next) sum += turned->value * i++;
  return sum;
}

static link *root;

static int deep(const link *at) {
  if (!at) return 0;
  int left = deep(at->next), right = deep(at->other);
  return 1 + (left > right ? left : right);
}

EXPORT(tree) int tree(int count, unsigned seed) {
  links_used = 0, root = 0;
  random_seed(seed);
  for (int i = 0; i < count; i++) {
    int value = (int)random_below(100);
    link **at = &root;
    while (*at && (*at)->value != value) at = value < (*at)->value ? &(*at)->next : &(*at)->other;
    if (!*at) *at = made(value);
  }
  return deep(root);
}

static int between(const link *at, int low, int high) {
  if (!at) return 0;
  int sum = at->value >= low && at->value <= high ? at->value : 0;
  if (at->value > low) sum += between(at->next, low, high);
  if (at->value < high) sum += between(at->other, low, high);
  return sum;
}

EXPORT(tree_sum) int tree_sum(int low, int high) { return between(root, low, high); }

EXPORT(ring) int ring(int count) {
  int kept[8], first = 0, held = 0, sum = 0;
  for (int i = 0; i < count; i++) {
    if (held == 8) sum += kept[first], first = (first + 1) % 8, held--;
    kept[(first + held++) % 8] = i * i;
  }
  return sum;
}

EXPORT(josephus) int josephus(int count, int step) {
  byte next[64];
  int at = count - 1;
  REQUIRE(count <= 64);
  for (int i = 0; i < count; i++) next[i] = (byte)((i + 1) % count);
  while (next[at] != at) {
    for (int k = 1; k < step; k++) at = next[at];
    next[at] = next[next[at]];
  }
  return at + 1;
}
