/* The same on structures of each strand's own. */
#include <cilk/cilk.h>
struct point { double x, y, z; };
static struct point add(struct point a, struct point b) { return (struct point){a.x + b.x, a.y + b.y, a.z + b.z}; }
static struct point point(int i) { return (struct point){i, 2 * i, 3 * i}; }
static struct point sum(int from, int to) {
  struct point total = point(0);
  for (int i = from; i < to; i++) total = add(total, point(i));
  return total;
}
int main(void) {
  struct point parts[3], all;
  cilk_for (int i = 0; i < 3; i++) parts[i] = sum(4 * i, 4 * i + 4);
  all = cilk_spawn sum(0, 4);
  struct point other = sum(4, 12);
  cilk_sync;
  all = add(all, other);
  for (int i = 0; i < 3; i++) all = add(all, parts[i]);
  return all.z != 396;
}
