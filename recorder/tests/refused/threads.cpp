// cilkrec: threads and processes aren't recorded
#include <cilk/cilk.h>
#include <thread>
int main() { std::thread t([] {}); t.join(); }
