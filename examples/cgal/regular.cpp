// Whether CGAL's regular triangulation of weighted points has the tetrahedra that delaunay3 of examples/tetrahedra listed: standard input is what it
// writes with the word `cells`. CGAL asks its own exact predicates of the plain points, so this holds of points in general position.
#include <CGAL/Exact_predicates_inexact_constructions_kernel.h>
#include <CGAL/Regular_triangulation_3.h>
#include <algorithm>
#include <array>
#include <cstdio>
#include <iostream>
#include <map>
#include <vector>

typedef CGAL::Exact_predicates_inexact_constructions_kernel Kernel;
typedef CGAL::Regular_triangulation_3<Kernel> Regular;

int main() {
  size_t count = 0;
  std::cin >> count;
  std::vector<Regular::Weighted_point> points;
  std::map<Kernel::Point_3, int> number;
  for (double x, y, z, w; points.size() < count && std::cin >> x >> y >> z >> w;) {
    number.emplace(Kernel::Point_3(x, y, z), (int)points.size());
    points.emplace_back(Kernel::Point_3(x, y, z), w);
  }
  std::vector<std::array<int, 4>> listed, own;
  for (std::array<int, 4> cell; std::cin >> cell[0] >> cell[1] >> cell[2] >> cell[3];) listed.push_back(cell);
  const Regular regular(points.begin(), points.end());
  for (auto cell : regular.finite_cell_handles()) {
    own.emplace_back();
    for (int i = 0; i < 4; i++) own.back()[i] = number.at(cell->vertex(i)->point().point());
  }
  for (auto *cells : {&listed, &own}) {
    for (auto &cell : *cells) std::sort(cell.begin(), cell.end());
    std::sort(cells->begin(), cells->end());
  }
  const bool same = listed == own && points.size() == count && !own.empty();
  printf("space, weighted: %zu points, %zu vertices, %zu tetrahedra, %s\n", count, (size_t)regular.number_of_vertices(), own.size(),
         same ? "the same as CGAL's" : "NOT those of CGAL");
  return same ? 0 : 1;
}
