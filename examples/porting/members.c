int x[2], y[2];
int magnitude(int n) {
  if (n < 0) return -n;
  return n;
}
int distance(int point) {
  int across = magnitude(x[point]), up = magnitude(y[point]);
  return across + up;
}
int main() {
  x[0] = 3;
  y[0] = 4;
  x[1] = -6;
  y[1] = 8;
  for (int i = 0; i < 2; i++) {
    int d = distance(i);
    print(d);
  }
  return 0;
}
