// libglm-dev: g++ race-free, race
#include <cilk/cilk.h>
#include <glm/glm.hpp>
#include <glm/gtc/matrix_transform.hpp>
static glm::vec4 points[8], least(9);
int main() {
  cilk_for (int k = 0; k < 8; k++) {
    glm::mat4 m = glm::rotate(glm::mat4(1), 0.1f * k, glm::vec3(0, 0, 1));
    points[k] = m * glm::vec4(k, 1, 0, 1);
#ifdef RACY
    least = glm::min(least, points[k]);
#endif
  }
  return points[3].w != 1;
}
