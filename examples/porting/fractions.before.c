#include <cilk/cilk.h>
double part[100];
int main(void) {
  double sum = 0;
  cilk_for (int i = 0; i < 100; i++) part[i] = 4.0 / (2 * i + 1) * (i % 2 ? -1 : 1);
  for (int i = 0; i < 100; i++) sum += part[i];
  print((int)(1000 * sum));
  return 0;
}
