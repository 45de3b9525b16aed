#include <stdio.h>
#include <complex.h>
#include <cilk/cilk.h>

#define WIDTH 24
#define HEIGHT 12
static const int max_iter = 30;
char picture[HEIGHT][WIDTH + 1];

static inline int escapes(float cr, float ci) {
  float zr = 0.0f, zi = 0.0f;
  int k;
  for (k = 0; k < max_iter; k++) {
    float t = zr * zr - zi * zi + cr;
    zi = 2 * zr * zi + ci;
    zr = t;
    if (zr * zr + zi * zi > 4.0f) goto out;
  }
out:
  return k;
}

int main() {
  cilk_for (int y = 0; y < HEIGHT; y++) {
    cilk_for (int x = 0; x < WIDTH; x++) {
      float cr = -2.0f + 3.0f * x / WIDTH;
      float ci = -1.0f + 2.0f * y / HEIGHT;
      picture[y][x] = escapes(cr, ci) == max_iter ? '#' : '.';
    }
  }
  for (int y = 0; y < HEIGHT; y++) {
    picture[y][WIDTH] = '\0';
    puts(picture[y]);
  }
  return 0;
}
