#include <stdio.h>
#include <stdbool.h>
#include <cilk/cilk.h>

enum { N = 32 };
unsigned int in[N], out[N], sums[2 * N];

unsigned int upsweep(int lo, int hi, int node) {
  if (hi - lo == 1)
    return sums[node] = in[lo];
  int mid = (lo + hi) >> 1;
  unsigned int left = cilk_spawn upsweep(lo, mid, node << 1);
  unsigned int right = upsweep(mid, hi, (node << 1) | 1);
  cilk_sync;
  return sums[node] = left + right;
}

void downsweep(int lo, int hi, int node, unsigned int before) {
  if (hi - lo == 1) {
    out[lo] = before + in[lo];
    return;
  }
  int mid = (lo + hi) >> 1;
  cilk_spawn downsweep(lo, mid, 2 * node, before);
  downsweep(mid, hi, 2 * node + 1, before + sums[2 * node]);
}

int main(void) {
  bool ok = true;
  cilk_for (int i = 0; i < N; i++)
    in[i] = i & 7;
  upsweep(0, N, 1);
  downsweep(0, N, 1, 0);
  for (int i = 0, s = 0; i < N; i++) {
    s += in[i];
    if (out[i] != s) {
      ok = false;
      break;
    }
  }
  puts(ok ? "ok" : "wrong");
  return !ok;
}
