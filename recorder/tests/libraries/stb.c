// libstb-dev: gcc race-free, race
#include <cilk/cilk.h>
#define STB_PERLIN_IMPLEMENTATION
#include <stb/stb_perlin.h>
static float noise[8][8], most;
int main(void) {
  cilk_for (int y = 0; y < 8; y++)
    for (int x = 0; x < 8; x++) {
      noise[y][x] = stb_perlin_noise3(x / 3.0f, y / 3.0f, 0.5f, 0, 0, 0);
#ifdef RACY
      if (noise[y][x] > most) most = noise[y][x];
#endif
    }
  return noise[0][0] > 2;
}
