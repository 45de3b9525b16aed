#include <stdio.h>
#include <cilk/cilk.h>

#define WIDTH 32
#define HEIGHT 16
#define LIMIT 50

unsigned char image[HEIGHT][WIDTH];

static int escape(double cr, double ci) {
  double x = 0, y = 0;
  int n;
  for (n = 0; n < LIMIT; n++) {
    double xx = x * x, yy = y * y;
    if (xx + yy > 4.0) break;
    y = 2 * x * y + ci;
    x = xx - yy + cr;
  }
  return n;
}

int main() {
  cilk_for (int row = 0; row < HEIGHT; ++row) {
    cilk_for (int col = 0; col < WIDTH; ++col) {
      image[row][col] = escape(-2.0 + 3.0 * col / WIDTH, -1.0 + 2.0 * row / HEIGHT);
    }
  }
  for (int row = 0; row < HEIGHT; row++) {
    for (int col = 0; col < WIDTH; col++)
      putchar(image[row][col] == LIMIT ? '#' : '.');
    putchar('\n');
  }
  return 0;
}
