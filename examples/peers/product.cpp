// A product of matrices by two threads, for the cost of ThreadSanitizer.
//     g++ -O1 -g -pthread product.cpp -o product
//     g++ -O1 -g -pthread -fsanitize=thread product.cpp -o product_checked
// g++ 12.2 on Linux, six runs each: 0.08 to 0.12 and 2.9 to 4.4 processor seconds, 32 to 39 times as much.
#include <cstdio>
#include <thread>

const int n = 256;
double a[n][n], b[n][n], c[n][n];

static void rows(int from, int to) {
    for (int i = from; i < to; i++)
        for (int j = 0; j < n; j++) {
            double sum = 0;
            for (int k = 0; k < n; k++) sum += a[i][k] * b[k][j];
            c[i][j] = sum;
        }
}

int main() {
    for (int i = 0; i < n; i++)
        for (int j = 0; j < n; j++) a[i][j] = i + j, b[i][j] = i - j;
    for (int round = 0; round < 4; round++) {
        std::thread other(rows, 0, n / 2);
        rows(n / 2, n);
        other.join();
    }
    printf("%g\n", c[3][4]);
}
