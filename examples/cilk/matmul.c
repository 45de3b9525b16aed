/*
 * C += A * B by quarters: four products into different quarters at once, a sync, and the four others. With -DRACY the
 * sync in the middle is missing, so two products may add to one quarter at a time.
 */
#include <cilk/cilk.h>
#include <stdio.h>
#include <stdlib.h>

#ifndef N
#define N 16
#endif
#ifndef SMALL
#define SMALL 4
#endif

static void multiply_small(double *c, const double *a, const double *b, int n)
{
    for (int i = 0; i < n; i++)
        for (int k = 0; k < n; k++)
            for (int j = 0; j < n; j++)
                c[i * N + j] += a[i * N + k] * b[k * N + j];
}

static void multiply(double *c, const double *a, const double *b, int n)
{
    if (n <= SMALL) {
        multiply_small(c, a, b, n);
        return;
    }
    int half = n / 2, right = half, below = half * N;

    cilk_spawn multiply(c, a, b, half);
    cilk_spawn multiply(c + right, a, b + right, half);
    cilk_spawn multiply(c + below, a + below, b, half);
    multiply(c + below + right, a + below, b + right, half);
#ifndef RACY
    cilk_sync;
#endif
    cilk_spawn multiply(c, a + right, b + below, half);
    cilk_spawn multiply(c + right, a + right, b + below + right, half);
    cilk_spawn multiply(c + below, a + below + right, b + below, half);
    multiply(c + below + right, a + below + right, b + below + right, half);
    cilk_sync;
}

int main(void)
{
    double *a = malloc(sizeof(double) * N * N), *b = malloc(sizeof(double) * N * N);
    double *c = calloc(N * N, sizeof(double));

    if (!a || !b || !c)
        return 1;
    cilk_for (int i = 0; i < N; i++)
        for (int j = 0; j < N; j++) {
            a[i * N + j] = i + j;
            b[i * N + j] = i == j ? 2 : 0;
        }
    multiply(c, a, b, N);
    printf("%g\n", c[N * N - 1]);
    free(a);
    free(b);
    free(c);
    return 0;
}
