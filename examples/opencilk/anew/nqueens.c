#include <cilk/cilk.h>
#include <stdio.h>
#include <string.h>

/* Whether the queens in the first n columns of a are safe. */
int ok(int n, char *a) {
  int i, j;
  char p, q;
  for (i = 0; i < n; i++) {
    p = a[i];
    for (j = i + 1; j < n; j++) {
      q = a[j];
      if (q == p || q == p - (j - i) || q == p + (j - i))
        return 0;
    }
  }
  return 1;
}

int nqueens(int n, int j, char *a) {
  char *b;
  int i;
  int *count;
  int solNum = 0;

  if (n == j) {
    return 1;
  }
  count = (int *) alloca(n * sizeof(int));
  (void) memset(count, 0, n * sizeof(int));

  for (i = 0; i < n; i++) {
    /* strategy: allocate a temporary array and copy a into it */
    b = (char *) alloca((j + 1) * sizeof(char));
    memcpy(b, a, j * sizeof(char));
    b[j] = i;
    if (ok(j + 1, b)) {
      count[i] = cilk_spawn nqueens(n, j + 1, b);
    }
  }
  cilk_sync;

  for (i = 0; i < n; i++) {
    solNum += count[i];
  }
  return solNum;
}

int main(int argc, char *argv[]) {
  int n = 5;
  char *a = (char *) alloca(n * sizeof(char));
  int res = nqueens(n, 0, a);
  if (res == 0)
    printf("No solution found.\n");
  else
    printf("Total number of solutions : %d\n", res);
  return 0;
}
