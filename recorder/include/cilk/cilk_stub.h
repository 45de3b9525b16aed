/* OpenCilk's header for the serial elision: here as cilk.h, since what is recorded is that elision. */
#include <cilk/cilk.h>
