void zero(void *view) { *(int *)view = 0; }
void plus(void *left, void *right) { *(int *)left += *(int *)right; }
int cilk_reducer(zero, plus) bin[7];
int main(void) {
  cilk_for (int i = 0; i < 300; i++) bin[i * i % 7]++;
  for (int b = 0; b < 7; b++) print(bin[b]);
  return 0;
}
