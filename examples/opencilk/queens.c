#include <stdio.h>
#include <string.h>
#include <cilk/cilk.h>

#define N 6

int safe(int n, int *board) {
  for (int i = 0; i < n; i++)
    for (int j = i + 1; j < n; j++) {
      int d = board[i] - board[j];
      if (d == 0 || d == j - i || -d == j - i) return 0;
    }
  return 1;
}

int queens(int n, int row, int *board) {
  if (row == n) return 1;
  int count[N];
  int boards[N][N];
  memset(count, 0, sizeof(count));
  for (int i = 0; i < n; i++) {
    memcpy(boards[i], board, row * sizeof(int));
    boards[i][row] = i;
    if (safe(row + 1, boards[i]))
      count[i] = cilk_spawn queens(n, row + 1, boards[i]);
  }
  cilk_sync;
  int total = 0;
  for (int i = 0; i < n; i++) total += count[i];
  return total;
}

int main(void) {
  int board[N];
  printf("%d\n", queens(N, 0, board));
  return 0;
}
