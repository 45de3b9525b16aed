// cilkrec: threads and processes aren't recorded
#include <unistd.h>
int main(void) { return fork() != 0; }
