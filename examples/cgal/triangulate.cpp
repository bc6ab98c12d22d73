// CGAL's Delaunay and regular triangulations over the kernels of kernel.h, checked. Of random points each has the same simplices as over CGAL's own
// kernel; the doubles of the plane are put on a grid first. Of a grid, where any four neighbours lie on a circle and any eight on a sphere, each is valid: CGAL's own test passes, no simplex
// is turned over, the areas or volumes add up, and no circle or sphere has a point inside, by CGAL's plain predicates.
#include "kernel.h"
#include <lnc_grid.h>
#include <CGAL/Delaunay_triangulation_2.h>
#include <CGAL/Delaunay_triangulation_3.h>
#include <CGAL/Regular_triangulation_2.h>
#include <CGAL/Regular_triangulation_3.h>
#include <algorithm>
#include <cmath>
#include <cstdio>
#include <map>
#include <random>
#include <vector>

typedef std::array<int64_t, 3> Place;
typedef std::vector<int64_t> Corners;

// What differs between the plane and space. A simplex's measure is twice its area, or six times its volume.
struct Plane {
  static constexpr int D = 2;
  static constexpr const char *name = "plane", *simplices = "triangles";
  typedef CGAL::Delaunay_triangulation_2<Kernel2> Perturbed;
  typedef CGAL::Delaunay_triangulation_2<Plain> Own;
  static Plain::Point_2 point(const Place &p) { return Plain::Point_2(p[0], p[1]); }
  template <class T> static auto cells(const T &t) { return t.finite_face_handles(); }
  static int64_t measure(const Place *p) {
    return (p[1][0] - p[0][0]) * (p[2][1] - p[0][1]) - (p[1][1] - p[0][1]) * (p[2][0] - p[0][0]);
  }
  static bool inside(const Place *p, const Place &q) {
    return Plain::Side_of_oriented_circle_2()(point(p[0]), point(p[1]), point(p[2]), point(q)) == CGAL::ON_POSITIVE_SIDE;
  }
};

struct Space {
  static constexpr int D = 3;
  static constexpr const char *name = "space", *simplices = "tetrahedra";
  typedef CGAL::Delaunay_triangulation_3<Kernel3> Perturbed;
  typedef CGAL::Delaunay_triangulation_3<Plain> Own;
  static Plain::Point_3 point(const Place &p) { return Plain::Point_3(p[0], p[1], p[2]); }
  template <class T> static auto cells(const T &t) { return t.finite_cell_handles(); }
  static int64_t measure(const Place *p) {
    int64_t m[3][3];
    for (int i = 0; i < 3; i++)
      for (int j = 0; j < 3; j++) m[i][j] = p[i + 1][j] - p[0][j];
    return m[0][0] * (m[1][1] * m[2][2] - m[1][2] * m[2][1]) - m[0][1] * (m[1][0] * m[2][2] - m[1][2] * m[2][0]) +
           m[0][2] * (m[1][0] * m[2][1] - m[1][1] * m[2][0]);
  }
  static bool inside(const Place *p, const Place &q) {
    return Plain::Side_of_oriented_sphere_3()(point(p[0]), point(p[1]), point(p[2]), point(p[3]), point(q)) == CGAL::ON_POSITIVE_SIDE;
  }
};

template <class P> static Place place(const P &p) {
  Place at = {};
  for (int i = 0; i < p.dimension(); i++) at[i] = (int64_t)p[i];
  return at;
}

// the perturbed triangulation of points: the index of each is its number
template <class S> static typename S::Perturbed perturbed(const std::vector<Place> &points) {
  std::vector<typename S::Perturbed::Point> sites;
  for (const Place &at : points) sites.push_back(site(S::point(at), static_cast<std::int64_t>(sites.size())));
  return typename S::Perturbed(sites.begin(), sites.end());
}

// the simplices of a triangulation, each as the sorted numbers of its corners
template <class S, class T> static std::vector<Corners> simplices(const T &t, const std::vector<Place> &points) {
  std::map<Place, int64_t> number;
  for (const Place &at : points) number.emplace(at, number.size());
  std::vector<Corners> all;
  for (auto cell : S::cells(t)) {
    Corners corners;
    for (int i = 0; i <= S::D; i++) corners.push_back(number.at(place(cell->vertex(i)->point())));
    std::sort(corners.begin(), corners.end());
    all.push_back(corners);
  }
  std::sort(all.begin(), all.end());
  return all;
}

template <class S> static bool random_points(size_t wanted) {
  std::mt19937_64 random(1);
  auto coordinate = [&] { return (int64_t)(random() % (1 << 21)) - (1 << 20); };
  std::vector<Place> points;
  while (points.size() < wanted) {
    int64_t x = coordinate(), y = coordinate();
    points.push_back({x, y, S::D == 3 ? coordinate() : 0});
  }
  std::vector<decltype(S::point({}))> plain;
  for (const Place &at : points) plain.push_back(S::point(at));
  const auto mine = simplices<S>(perturbed<S>(points), points);
  const bool same = mine == simplices<S>(typename S::Own(plain.begin(), plain.end()), points);
  printf("%s, random: %zu points, %zu %s, %s\n", S::name, points.size(), mine.size(), S::simplices,
         same ? "the same as with CGAL's own kernel" : "NOT those of CGAL's own kernel");
  return same;
}

template <class S> static bool grid(int64_t side) {
  const int64_t step = 10;
  std::vector<Place> points;
  for (int64_t x = 0; x < side; x++)
    for (int64_t y = 0; y < side; y++)
      for (int64_t z = 0; z < (S::D == 3 ? side : 1); z++) points.push_back({step * x, step * y, step * z});
  const auto t = perturbed<S>(points);
  size_t count = 0, flat = 0;
  int64_t sum = 0;
  bool fine = t.is_valid() && t.dimension() == S::D && t.number_of_vertices() == points.size();
  for (auto cell : S::cells(t)) {
    Place corners[S::D + 1];
    for (int i = 0; i <= S::D; i++) corners[i] = place(cell->vertex(i)->point());
    const int64_t measure = S::measure(corners);
    count++;
    sum += measure;
    if (measure == 0) flat++;
    fine = fine && measure >= 0;
    if (measure > 0)
      for (const Place &at : points) fine = fine && !S::inside(corners, at);
  }
  const int64_t edge = step * (side - 1);
  fine = fine && sum == (S::D == 3 ? 6 * edge * edge * edge : 2 * edge * edge);
  printf("%s, grid: %zu points, %zu %s (%zu flat), %s\n", S::name, points.size(), count, S::simplices, flat, fine ? "valid" : "NOT valid");
  return fine;
}

// 100,000 doubles over the grid of lnc_grid.h, beside CGAL's triangulation of the doubles that the grid's points are, exactly
static bool doubles(size_t wanted) {
  std::mt19937_64 random(1);
  std::vector<double> xy(2 * wanted);
  for (double &c : xy) c = std::ldexp(static_cast<double>(random() >> 11), -53) * 40 - 7;
  const lnc::grid grid(2, wanted, xy.data(), LN_POINT2_X_MIN, LN_POINT2_X_MAX);
  std::vector<Site2> sites;
  std::vector<Plain::Point_2> back;
  std::map<Plain::Point_2, int64_t> number;
  for (size_t i = 0; i < grid.count(); i++) {
    double point[2];
    grid.back(grid[i], point);
    back.emplace_back(point[0], point[1]);
    sites.push_back(site(Plain::Point_2(static_cast<double>(grid[i][0]), static_cast<double>(grid[i][1])), static_cast<int64_t>(i)));
    number.emplace(back[i], i);
  }
  const CGAL::Delaunay_triangulation_2<Kernel2> mine(sites.begin(), sites.end());
  const CGAL::Delaunay_triangulation_2<Plain> theirs(back.begin(), back.end());
  std::vector<Corners> all[2];
  for (auto cell : mine.finite_face_handles()) all[0].push_back({cell->vertex(0)->point().own.index, cell->vertex(1)->point().own.index, cell->vertex(2)->point().own.index});
  for (auto cell : theirs.finite_face_handles()) all[1].push_back({number[cell->vertex(0)->point()], number[cell->vertex(1)->point()], number[cell->vertex(2)->point()]});
  for (auto &cells : all) {
    for (auto &corners : cells) std::sort(corners.begin(), corners.end());
    std::sort(cells.begin(), cells.end());
  }
  const bool same = grid.end == LN_GRID_DONE && grid.equal() == 0 && all[0] == all[1];
  printf("plane, doubles: %zu points, moved by at most 2^%d, %zu triangles, %s\n", grid.count(), std::ilogb(grid.move()) + 1, all[0].size(),
         same ? "the same as with CGAL's own kernel" : "NOT those of CGAL's own kernel");
  return same;
}

// random weighted points: the same simplices as CGAL's regular triangulation
template <class Mine, class Theirs, class Point, class Bare> static bool weighted(const char *name, int D, size_t wanted) {
  std::mt19937_64 random(2);
  auto coordinate = [&] { return static_cast<double>(static_cast<int64_t>(random() % (1 << 21)) - (1 << 20)); };
  std::vector<Point> plain;
  std::vector<typename Mine::Weighted_point> sites;
  while (plain.size() < wanted) {
    Bare at;
    if constexpr (std::is_same_v<Bare, Plain::Point_2>) { const double x = coordinate(), y = coordinate(); at = Bare(x, y); }
    else { const double x = coordinate(), y = coordinate(), z = coordinate(); at = Bare(x, y, z); }
    plain.emplace_back(at, static_cast<double>(random() % (INT64_C(1) << (D == 3 ? 34 : 30))));
    sites.push_back(site(plain.back(), static_cast<int64_t>(sites.size())));
  }
  const Mine mine(sites.begin(), sites.end());
  const Theirs theirs(plain.begin(), plain.end());
  std::map<Bare, int64_t> number;
  for (const auto &p : plain) number.emplace(p.point(), static_cast<int64_t>(number.size()));
  std::vector<Corners> all[2];
  auto list = [&](const auto &t, std::vector<Corners> &into) {
    auto one = [&](auto cell) {
      Corners corners;
      for (int i = 0; i <= D; i++) corners.push_back(number.at(Bare(cell->vertex(i)->point().point())));
      std::sort(corners.begin(), corners.end());
      into.push_back(corners);
    };
    if constexpr (std::is_same_v<Bare, Plain::Point_2>) for (auto cell : t.finite_face_handles()) one(cell);
    else for (auto cell : t.finite_cell_handles()) one(cell);
    std::sort(into.begin(), into.end());
  };
  list(mine, all[0]);
  list(theirs, all[1]);
  const bool same = all[0] == all[1] && mine.is_valid() && mine.number_of_vertices() == theirs.number_of_vertices();
  printf("%s, weighted: %zu points, %zu of them vertices, %zu %s, %s\n", name, plain.size(), static_cast<size_t>(mine.number_of_vertices()), all[0].size(),
         D == 2 ? "triangles" : "tetrahedra", same ? "the same as with CGAL's own kernel" : "NOT those of CGAL's own kernel");
  return same;
}

// a point that no predicate takes is refused where it is made
static bool refused(double x, std::int64_t index) {
  try {
    site(Plain::Point_3(x, 0, 0), index);
  } catch (const std::exception &) {
    return true;
  }
  return false;
}

int main() {
  typedef CGAL::Regular_triangulation_2<Regular2> Mine2;
  typedef CGAL::Regular_triangulation_2<Plain> Own2;
  typedef CGAL::Regular_triangulation_3<Regular3> Mine3;
  typedef CGAL::Regular_triangulation_3<Plain> Own3;
  const bool fine[] = {random_points<Plane>(10000), doubles(100000), grid<Plane>(20), random_points<Space>(3000), grid<Space>(6),
                       weighted<Mine2, Own2, Plain::Weighted_point_2, Plain::Point_2>("plane", 2, 10000),
                       weighted<Mine3, Own3, Plain::Weighted_point_3, Plain::Point_3>("space", 3, 3000)};
  const bool tested = refused(8388609, 0) && refused(0.5, 0) && refused(1e300, 0) && refused(NAN, 0) && refused(0, -1) && !refused(8388608, 0);
  printf("points out of range are %s\n", tested ? "refused" : "NOT refused");
  return fine[0] && fine[1] && fine[2] && fine[3] && fine[4] && fine[5] && fine[6] && tested ? 0 : 1;
}
