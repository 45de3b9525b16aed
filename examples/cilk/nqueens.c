/*
 * The ways to place n queens, by a board for each spawned call. With -DRACY all calls of a row share one board, so a
 * child may see the queen that its parent puts down for the next one.
 */
#include <alloca.h>
#include <cilk/cilk.h>
#include <stdio.h>
#include <string.h>

#ifndef N
#define N 6
#endif

/* Whether a queen at (row, column) is safe from those in the rows above. */
static int is_safe(const signed char *board, int row, int column)
{
    for (int r = 0; r < row; r++) {
        int distance = column - board[r];
        if (distance == 0 || distance == row - r || distance == r - row)
            return 0;
    }
    return 1;
}

static int place(int n, int row, const signed char *board)
{
    if (row == n)
        return 1;
    int *found = alloca(sizeof(int) * (size_t)n);
    signed char *boards = alloca((size_t)(n * (row + 1)));

    memset(found, 0, sizeof(int) * (size_t)n);
    for (int column = 0; column < n; column++) {
        if (!is_safe(board, row, column))
            continue;
#ifdef RACY
        signed char *next = boards;
#else
        signed char *next = boards + column * (row + 1);
#endif
        memcpy(next, board, (size_t)row);
        next[row] = (signed char)column;
        found[column] = cilk_spawn place(n, row + 1, next);
    }
    cilk_sync;

    int sum = 0;
    for (int column = 0; column < n; column++)
        sum += found[column];
    return sum;
}

int main(void)
{
    signed char none[1] = {0};
    printf("%d ways\n", place(N, 0, none));
    return 0;
}
