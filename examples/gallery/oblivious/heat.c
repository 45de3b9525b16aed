#include <cilk/cilk.h>
// Heat on a square plate. The input is its width, the number of steps, then the points, row by row.
// In parallel: the rows of a step. A step reads one plate and writes the other, which is then copied.
// Depends on numbers 0 and 1, the width and the steps: on no point's heat.
// Shows the row in the middle; the result is the sum of all points.
// Checked against the same steps over lists of lists (tools/gallery_answers.py).
int now[1024], next[1024];

void step(int width) {
  cilk_for (int row = 1; row < width - 1; row++) {
    for (int column = 1; column < width - 1; column++) {
      int at = width * row + column;
      next[at] = (4 * now[at] + now[at - 1] + now[at + 1] + now[at - width] + now[at + width]) / 8;
    }
  }
  cilk_for (int row = 1; row < width - 1; row++) {
    for (int column = 1; column < width - 1; column++) {
      now[width * row + column] = next[width * row + column];
    }
  }
}

int main() {
  int width = input(0), steps = input(1);
  for (int i = 0; i < width * width; i++) {
    now[i] = input(2 + i);
  }
  for (int s = 0; s < steps; s++) {
    step(width);
  }
  for (int column = 0; column < width; column++) {
    print(now[width * (width / 2) + column]);
  }
  int sum = 0;
  for (int i = 0; i < width * width; i++) {
    sum += now[i];
  }
  return sum;
}
