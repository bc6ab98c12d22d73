// From C++: the emitted file is C, so its functions are declared in extern "C".
#include <array>
#include <cstdint>
#include <iostream>

extern "C" int ln_orient(const std::int64_t *x, const std::int64_t *v);

struct Point {
  std::int64_t index, x, y;
};

int orient(const Point &p, const Point &q, const Point &r) {
  const std::array<std::int64_t, 3> x{p.index, q.index, r.index};
  const std::array<std::int64_t, 6> v{p.x, p.y, q.x, q.y, r.x, r.y};
  return ln_orient(x.data(), v.data());
}

int main() {
  std::cout << orient({1, 0, 0}, {2, 1, 0}, {3, 0, 1}) << ' ' << orient({1, 0, 0}, {2, 1, 1}, {3, 2, 2}) << '\n';
}
