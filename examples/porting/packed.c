int main() {
  int cilk_reducer(max) best;
  cilk_for (int i = 0; i < 100; i++) {
    int height = i * 37 % 101;
    update(best, 100 * height + 99 - i);
  }
  print(value(best) / 100);
  print(99 - value(best) % 100);
  return 0;
}
