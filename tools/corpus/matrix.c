// Matrices of ints: products, powers modulo a number, determinants, transposing, a spiral, and a magic square.
#include "pack.h"

// call fill 4 3
// call multiply 4
// call trace 4
// call fill 4 4
// call determinant 4
// call fibonacci 12
// call transpose 4
// call spiral 5
// call magic 3
// call convolve 4
// call trace 100
// call fill 8 9
// call multiply 8
// call magic 7
// call convolve 7
// call determinant 5

#define MOST 12
typedef int matrix[MOST][MOST];
static matrix a, b, c;

EXPORT(fill) void fill(unsigned n, unsigned seed) {
  REQUIRE(n <= MOST);
  random_seed(seed);
  for (unsigned i = 0; i < n; i++)
    for (unsigned j = 0; j < n; j++) {
      a[i][j] = (int)(random_next() % 19) - 9;
      b[i][j] = a[i][j] * 2 + (i == j);
    }
}

static void product(int n, matrix to, matrix x, matrix y) {
  for (int i = 0; i < n; i++)
    for (int j = 0; j < n; j++) {
      int sum = 0;
      for (int k = 0; k < n; k++) sum += x[i][k] * y[k][j];
      to[i][j] = sum;
    }
}

EXPORT(multiply) void multiply(int n) { product(n, c, a, b); }

EXPORT(trace) int trace(unsigned n) {
  REQUIRE(n <= MOST);
  int sum = 0;
  for (unsigned i = 0; i < n; i++) sum += c[i][i];
  return sum;
}

// By Bareiss, whose divisions leave no rest.
EXPORT(determinant) int determinant(int n) {
  int sign = 1, before = 1;
  for (int i = 0; i < n; i++)
    for (int j = 0; j < n; j++) c[i][j] = a[i][j] % 4;
  for (int k = 0; k < n - 1; k++) {
    int row = k;
    while (row < n && c[row][k] == 0) row++;
    if (row == n) return 0;
    if (row != k) {
      sign = -sign;
      for (int j = 0; j < n; j++) {
        int kept = c[k][j];
        c[k][j] = c[row][j], c[row][j] = kept;
      }
    }
    for (int i = k + 1; i < n; i++)
      for (int j = k + 1; j < n; j++) c[i][j] = (c[i][j] * c[k][k] - c[i][k] * c[k][j]) / before;
    before = c[k][k];
  }
  return sign * c[n - 1][n - 1];
}

// The numbers of Fibonacci modulo 10,007, by powers of a matrix.
EXPORT(fibonacci) int fibonacci(unsigned n) {
  int result[2][2] = {{1, 0}, {0, 1}}, base[2][2] = {{1, 1}, {1, 0}}, next[2][2];
  for (; n > 0; n /= 2) {
    for (int turn = n % 2 ? 0 : 1; turn < 2; turn++) {
      int(*to)[2] = turn ? base : result;
      for (int i = 0; i < 2; i++)
        for (int j = 0; j < 2; j++) next[i][j] = (to[i][0] * base[0][j] + to[i][1] * base[1][j]) % 10007;
      for (int i = 0; i < 2; i++)
        for (int j = 0; j < 2; j++) to[i][j] = next[i][j];
    }
  }
  return result[0][1];
}

EXPORT(transpose) int transpose(int n) {
  for (int i = 0; i < n; i++)
    for (int j = i + 1; j < n; j++) {
      int kept = a[i][j];
      a[i][j] = a[j][i], a[j][i] = kept;
    }
  return a[0][n - 1];
}

EXPORT(spiral) int spiral(int n) {
  int top = 0, left = 0, bottom = n - 1, right = n - 1, count = 0;
  while (top <= bottom && left <= right) {
    for (int j = left; j <= right; j++) b[top][j] = count++;
    for (int i = ++top; i <= bottom; i++) b[i][right] = count++;
    if (left > --right || top > bottom) break;
    for (int j = right; j >= left; j--) b[bottom][j] = count++;
    for (int i = --bottom; i >= top; i--) b[i][left] = count++;
    left++;
  }
  return b[n / 2][n / 2];
}

EXPORT(magic) int magic(int n) {
  int row = 0, column = n / 2;
  for (int i = 0; i < n; i++) memset(c[i], 0, (unsigned)n * sizeof c[i][0]);
  for (int count = 1; count <= n * n; count++) {
    c[row][column] = count;
    int up = (row + n - 1) % n, right = (column + 1) % n;
    if (c[up][right]) row = (row + 1) % n;
    else row = up, column = right;
  }
  return trace((unsigned)n);
}

EXPORT(convolve) int convolve(int n) {
  static const signed char weights[3][3] = {{1, 2, 1}, {2, 4, 2}, {1, 2, 1}};
  int most = 0;
  for (int i = 1; i < n - 1; i++)
    for (int j = 1; j < n - 1; j++) {
      int sum = 0;
      for (int k = 0; k < 9; k++) sum += weights[k / 3][k % 3] * a[i + k / 3 - 1][j + k % 3 - 1];
      b[i][j] = sum / 16;
      if (b[i][j] > most) most = b[i][j];
    }
  return most;
}
