// cilkrec: cilk_scope without braces
#include <cilk/cilk.h>
int main(void) { cilk_scope cilk_sync; return 0; }
