int a[8] = {2, 9, 4, 7, 5, 3, 6, 8};
int main(void) {
  int k = 0;
  do {
    if (a[k++] % 2 == 0) continue;
    if (a[k] == 7) break;
  } while (k < 7);
  print(k);
  return 0;
}
