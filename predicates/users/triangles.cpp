// A Delaunay triangulation: standard input has pairs of doubles, each line of standard output the numbers of a triangle's corners, from 0 and
// counterclockwise. Of points at one place the first counts. Flat triangles, which are all at the hull, are left out. Over the installed library
#include <iostream>
#include <lnc_grid.h>
#include <lnc_plane.h>
#include <map>
#include <utility>
#include <vector>
using Edge = std::pair<long, long>;
const long OUTSIDE = -1;  // the third corner of the triangles beyond the edges of the hull
static std::vector<lnc::point2> site;
static std::map<Edge, long> across;  // of each edge, from a to b, the third corner of the triangle at its left
static void add(long a, long b, long c) { across[{a, b}] = c, across[{b, c}] = a, across[{c, a}] = b; }
static bool is_outside(long a, long b, long c) { return a == OUTSIDE || b == OUTSIDE || c == OUTSIDE; }
static bool is_left(long a, long b, long p) { return lnc::orient2(site[a], site[b], site[p]) > 0; }
static bool is_inside(long a, long b, long c, long p) {  // the circle of a triangle; of one beyond the hull, what is beyond its edge
  if (is_outside(a, b, c)) return a == OUTSIDE ? is_left(b, c, p) : b == OUTSIDE ? is_left(c, a, p) : is_left(a, b, p);
  return lnc::incircle(site[a], site[b], site[c], site[p]) > 0;
}
// removes the triangles that have p in their circles, and joins p to the edges of the hole, one of which it returns
static Edge insert(long p, Edge near) {
  auto [a, b] = near;
  // a triangle with p in it, or one beyond the hull from which p is seen: from triangle to triangle
  for (int sides = 0; sides < 3 && !is_outside(a, b, across[{a, b}]); sides++) {
    if (!is_left(a, b, p)) std::swap(a, b), sides = 0;
    a = std::exchange(b, across[{a, b}]);
  }
  std::vector<Edge> hole{{a, b}, {b, across[{a, b}]}, {across[{a, b}], a}};
  while (!hole.empty()) {
    const auto [a, b] = hole.back();
    const long c = across[{b, a}];
    hole.pop_back();
    if (!is_inside(b, a, c, p)) {
      add(a, b, p);
      if (!is_outside(a, b, p)) near = {a, b};
    } else across.erase({a, b}), across.erase({b, a}), hole.insert(hole.end(), {{a, c}, {c, b}});
  }
  return near;
}
int main() {
  std::vector<double> xy;
  for (double c; std::cin >> c;) xy.push_back(c);
  const lnc::grid grid(2, xy.size() / 2, xy.data(), LN_POINT2_X_MIN, LN_POINT2_X_MAX);
  if (grid.end != LN_GRID_DONE) return std::cerr << "a point isn't finite\n", 1;
  std::vector<long> order;
  for (size_t p = 0; p < grid.count(); p++) {
    site.push_back({static_cast<long>(p), grid[p][0], grid[p][1]});
    if (grid.first(p) == p) order.push_back(site[p].index);
  }
  if (order.size() < 3) return 0;
  if (!is_left(order[0], order[1], order[2])) std::swap(order[0], order[1]);
  const long a = order[0], b = order[1], c = order[2];
  add(a, b, c), add(b, a, OUTSIDE), add(c, b, OUTSIDE), add(a, c, OUTSIDE);
  Edge near{a, b};
  for (size_t k = 3; k < order.size(); k++) near = insert(order[k], near);
  for (const auto &[edge, c] : across) {
    const auto [a, b] = edge;
    if (!is_outside(a, b, c) && a < b && a < c && lnc::orient2_plain(site[a], site[b], site[c])) std::cout << a << ' ' << b << ' ' << c << '\n';
  }
}
