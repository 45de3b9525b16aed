/*
 * LU decomposition in place, by blocks: the diagonal block, then its row and its column at once, then the rest. With
 * -DRACY the sync after row and column is missing, so the rest may use blocks that aren't solved yet.
 */
#include <cilk/cilk.h>
#include <stdio.h>

#ifndef N
#define N 16
#endif
enum { BLOCK = 4, BLOCKS = N / BLOCK };
static double m[N][N];

static void factor(int d)
{
    for (int k = d; k < d + BLOCK; k++)
        for (int i = k + 1; i < d + BLOCK; i++) {
            m[i][k] /= m[k][k];
            for (int j = k + 1; j < d + BLOCK; j++)
                m[i][j] -= m[i][k] * m[k][j];
        }
}

/* The block at (d, column), by the lower half of the diagonal block. */
static void solve_row(int d, int column)
{
    for (int k = d; k < d + BLOCK; k++)
        for (int i = k + 1; i < d + BLOCK; i++)
            for (int j = column; j < column + BLOCK; j++)
                m[i][j] -= m[i][k] * m[k][j];
}

/* The block at (row, d), by the upper half. */
static void solve_column(int d, int row)
{
    for (int k = d; k < d + BLOCK; k++)
        for (int i = row; i < row + BLOCK; i++) {
            m[i][k] /= m[k][k];
            for (int j = k + 1; j < d + BLOCK; j++)
                m[i][j] -= m[i][k] * m[k][j];
        }
}

static void update(int d, int row, int column)
{
    for (int i = row; i < row + BLOCK; i++)
        for (int k = d; k < d + BLOCK; k++)
            for (int j = column; j < column + BLOCK; j++)
                m[i][j] -= m[i][k] * m[k][j];
}

static void decompose(void)
{
    for (int d = 0; d < N; d += BLOCK) {
        factor(d);
        for (int b = d + BLOCK; b < N; b += BLOCK) {
            cilk_spawn solve_row(d, b);
            cilk_spawn solve_column(d, b);
        }
#ifndef RACY
        cilk_sync;
#endif
        cilk_for (int i = d / BLOCK + 1; i < BLOCKS; i++)
            cilk_for (int j = d / BLOCK + 1; j < BLOCKS; j++)
                update(d, i * BLOCK, j * BLOCK);
        cilk_sync;
    }
}

int main(void)
{
    for (int i = 0; i < N; i++)
        for (int j = 0; j < N; j++)
            m[i][j] = (i * 7 + j * 3) % 10 + (i == j ? 40 : 0);
    decompose();
    double determinant = 1;
    for (int i = 0; i < N; i++)
        determinant *= m[i][i];
    printf("determinant %g\n", determinant);
    return 0;
}
