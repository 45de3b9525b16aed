// The programs of bench/workers as one writes them with oneTBB: fib(22) with a task at each call, and a loop of 30,000
// turns that is halved down to single turns. Words and output are those of rayon.rs.

#include <oneapi/tbb.h>
#include <chrono>
#include <cstdint>
#include <iostream>
#include <string>
#include <vector>

constexpr int CREWS[] = {0, 1, 2, 4};
constexpr std::uint64_t ARGUMENT = 22;
constexpr std::uint64_t RESULT = 17711;
constexpr std::int64_t TURNS = 30000;

using Cells = std::vector<std::int64_t>;

// Makes this many steps, none of which can begin before the one before it has ended.
void work(std::uint32_t steps) {
    std::uint64_t word = 1;
    for (std::uint32_t i = 0; i < steps; i++) {
        word = (word ^ (word >> 15)) * 0x9E3779B97F4A7C15;
    }
    asm volatile("" : : "r"(word)); // so that the compiler keeps the steps
}

std::uint64_t serial_fib(std::uint64_t n, std::uint32_t grain) {
    work(grain);
    if (n < 2) {
        return n;
    }
    return serial_fib(n - 1, grain) + serial_fib(n - 2, grain);
}

std::uint64_t fib(std::uint64_t n, std::uint32_t grain) {
    work(grain);
    if (n < 2) {
        return n;
    }
    std::uint64_t x;
    tbb::task_group spawned;
    spawned.run([&x, n, grain] { x = fib(n - 1, grain); });
    std::uint64_t y = fib(n - 2, grain);
    spawned.wait();
    return x + y;
}

std::int64_t turn(std::int64_t i, std::uint32_t grain) {
    work(2 * grain);
    return ((((i * 31 + 7) % 1003 + i * 5) % 997 + i * 3 - 11) % 991 + i * 17) % 983 + (i * i + 13) % 977 + i / 3 - 5;
}

void serial_turns(Cells &cells, std::uint32_t grain) {
    for (std::int64_t i = 0; i < TURNS; i++) {
        cells[i] = turn(i, grain);
    }
}

void turns(Cells &cells, std::uint32_t grain) {
    tbb::parallel_for(
        tbb::blocked_range<std::int64_t>(0, TURNS, 1),
        [&cells, grain](const tbb::blocked_range<std::int64_t> &range) {
            for (std::int64_t i = range.begin(); i < range.end(); i++) {
                cells[i] = turn(i, grain);
            }
        },
        tbb::simple_partitioner());
}

// Runs the body once on this many threads (0: serially) and prints how long it took.
template <typename Body> void timed(const char *name, int crew, Body body) {
    tbb::task_arena arena(crew > 0 ? crew : 1);
    arena.initialize();
    auto before = std::chrono::steady_clock::now();
    bool is_right = crew > 0 ? arena.execute(body) : body();
    std::chrono::duration<double, std::micro> took = std::chrono::steady_clock::now() - before;
    std::cout << name << ' ' << crew << ' ';
    if (is_right) {
        std::cout << static_cast<long>(took.count()) << '\n';
    } else {
        std::cout << "failed\n";
    }
}

int main(int count, char **words) {
    if (count != 3) {
        std::cerr << "two numbers are needed: runs, and the grain\n";
        return 1;
    }
    unsigned long runs = std::stoul(words[1]);
    std::uint32_t grain = std::stoul(words[2]);
    // Four threads also where the machine has fewer processors.
    tbb::global_control threads(tbb::global_control::max_allowed_parallelism, 4);
    Cells wanted(TURNS);
    serial_turns(wanted, 0);
    for (unsigned long run = 0; run < runs; run++) {
        for (int crew : CREWS) {
            timed("fib", crew, [=] { return (crew > 0 ? fib : serial_fib)(ARGUMENT, grain) == RESULT; });
        }
    }
    for (unsigned long run = 0; run < runs; run++) {
        for (int crew : CREWS) {
            Cells cells(TURNS, -1);
            timed("loop", crew, [&] {
                (crew > 0 ? turns : serial_turns)(cells, grain);
                return cells == wanted;
            });
        }
    }
    return 0;
}
