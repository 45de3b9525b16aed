// wrong.c:3:
#include <cilk/cilk.h>
int main(void) { cilk_sync; return undeclared; }
