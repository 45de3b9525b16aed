/* One byte of a copy lies in the other's place: the 0 at its end. */
#include <cilk/cilk.h>
#include <string.h>

char text[9];

int main(void)
{
    cilk_spawn strcpy(text, "left");
    strcpy(text + 4, "more");
    cilk_sync;
    return 0;
}
