/* examples/race.c for Spin: the child writes x while its parent reads it.
       spin -run race.pml            assertion violated (y==1): 16 states; `spin -t -p race.pml` shows the steps
       spin -DSYNC -run race.pml     with the `cilk_sync` before the read: no error, 10 states */
byte x, y;
bool joined;

proctype one() {
    x = 1;
    joined = true
}

init {
    run one();
#ifdef SYNC
    joined;
#endif
    y = x;
    joined;
    assert(y == 1)
}
