typedef struct { int height; int place; } peak;
void lowest(void *view) { peak *p = view; p->height = -1; p->place = 0; }
void higher(void *left, void *right) { peak *l = left, *r = right; if (r->height > l->height) *l = *r; }
int main(void) {
  peak cilk_reducer(lowest, higher) best = {-1, 0};
  cilk_for (int i = 0; i < 100; i++) {
    int height = i * 37 % 101;
    if (height > best.height) { best.height = height; best.place = i; }
  }
  print(best.height);
  print(best.place);
  return 0;
}
