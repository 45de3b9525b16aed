// examples/race.c in C++, for other detectors: a child writes x while its parent reads it.
//     g++ -O1 -g -fsanitize=thread race.cpp -o race
//     ./race threads    the child in a thread of its own
//     ./race pool N     child and continuation as two tasks in a locked list, which N workers take from its end
// g++ 12.2 on Linux: by `threads` a report in 20 of 20 runs, by `pool 1` in 0 of 200. By `pool 2` in 0 or 2 of 20, in 19 or 20 of 200:
// often one worker makes both accesses, and then nothing is seen.
#include <atomic>
#include <cstdlib>
#include <cstring>
#include <functional>
#include <mutex>
#include <thread>
#include <vector>

int x, y;
std::mutex lock;
std::vector<std::function<void()>> tasks;
std::atomic<int> left{2};

static void child() { x = 1; }
static void continuation() { y = x; }

static void work() {
    while (left > 0) {
        std::function<void()> task;
        {
            std::lock_guard<std::mutex> guard(lock);
            if (!tasks.empty()) {
                task = tasks.back();
                tasks.pop_back();
            }
        }
        if (task) {
            task();
            left--;
        }
    }
}

int main(int count, char **words) {
    if (count == 2 && !strcmp(words[1], "threads")) {
        std::thread other(child);
        continuation();
        other.join();
        return y;
    }
    if (count != 3 || strcmp(words[1], "pool")) return 2;
    tasks = {continuation, child};
    std::vector<std::thread> others;
    for (int i = 1; i < atoi(words[2]); i++) others.emplace_back(work);
    work();
    for (auto &it : others) it.join();
    return y;
}
