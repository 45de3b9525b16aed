/* examples/fib.c for Spin, of fib(N): a process for each frame.
       spin -DN=4 -run fib.pml       no error: 213 states for N = 3, 68,139 for N = 4
   For N = 5 it needs more than 4 GB: 21,756,630 states were stored when that was full. */
proctype fib(byte n; chan result) {
    chan spawned = [1] of { byte };
    chan called = [1] of { byte };
    byte x, y;
    if
    :: n < 2 -> result ! n
    :: else ->
        run fib(n - 1, spawned);
        run fib(n - 2, called);
        called ? y;
        spawned ? x;
        result ! x + y
    fi
}

init {
    chan result = [1] of { byte };
    byte r;
    run fib(N, result);
    result ? r;
    assert(r == (N == 5 -> 5 : N - 1))
}
