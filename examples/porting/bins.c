int row[70], bin[7];
int main() {
  cilk_for (int block = 0; block < 10; block++) {
    for (int i = 30 * block; i < 30 * block + 30; i++) row[7 * block + i * i % 7]++;
  }
  cilk_for (int b = 0; b < 7; b++) {
    for (int block = 0; block < 10; block++) bin[b] += row[7 * block + b];
  }
  for (int b = 0; b < 7; b++) print(bin[b]);
  return 0;
}
