struct point { int x; int y; };
struct point points[] = { {3, 4}, {-6, 8} };
int distance(struct point p) { return (p.x < 0 ? -p.x : p.x) + (p.y < 0 ? -p.y : p.y); }
int main(void) {
  for (int i = 0; i < 2; i++) print(distance(points[i]));
  return 0;
}
