// cilkrec: a reducer as a member
#include <cilk/cilk.h>
void zero(void *v); void plus(void *l, void *r);
struct s { int cilk_reducer(zero, plus) n; };
int main(void) { return 0; }
