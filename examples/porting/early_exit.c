int a[8];
int main() {
  int digits = 86357492;
  for (int i = 0; i < 8; i++) {
    a[i] = digits % 10;
    digits = digits / 10;
  }
  int k = 0, found = 0;
  while (!found && k < 7) {
    int odd = a[k] % 2;
    k++;
    if (odd) found = a[k] == 7;
  }
  print(k);
  return 0;
}
