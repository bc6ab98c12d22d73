// Delaunay triangulations of CGAL in the plane and in space, with its own exact predicates and with those of predicates/ (examples/cgal): seconds
// of processor for random points, a grid and a line. Each triangulation has to be valid, and that of random points the same in number of
// cells. Built and run by bench/c.
#include "../examples/cgal/kernel.h"
#include <array>
#include <CGAL/Delaunay_triangulation_2.h>
#include <CGAL/Delaunay_triangulation_3.h>
#include <cstdio>
#include <cstdlib>
#include <ctime>
#include <random>
#include <set>
#include <string>
#include <vector>

typedef std::array<int64_t, 3> Place;

// places of a scene, about as many as wanted and none twice, in no particular order
static std::vector<Place> scene(int D, const std::string &name, int64_t wanted) {
  std::mt19937_64 random(12345);
  std::set<Place> all;
  int64_t side = 1;
  while ((D == 3 ? side * side * side : side * side) < wanted) side++;
  auto coordinate = [&] { return (int64_t)(random() % (2 << 20)) - (1 << 20); };
  if (name == "random") while ((int64_t)all.size() < wanted) {
    int64_t x = coordinate(), y = coordinate();
    all.insert({x, y, D == 3 ? coordinate() : 0});
  }
  if (name == "grid")
    for (int64_t i = 0; i < side; i++)
      for (int64_t j = 0; j < side; j++)
        for (int64_t k = 0; k < (D == 3 ? side : 1); k++) all.insert({100 * i, 100 * j, 100 * k});
  if (name == "line") for (int64_t i = 0; i < wanted; i++) all.insert({3 * i, 5 * i, D == 3 ? 7 * i : 0});
  std::vector<Place> places(all.begin(), all.end());
  std::shuffle(places.begin(), places.end(), random);
  return places;
}

static Plain::Point_2 made(const Place &at, Plain::Point_2 *) { return Plain::Point_2(at[0], at[1]); }
static Plain::Point_3 made(const Place &at, Plain::Point_3 *) { return Plain::Point_3(at[0], at[1], at[2]); }
static size_t cells(const CGAL::Delaunay_triangulation_2<Plain> &t) { return t.number_of_faces(); }
static size_t cells(const CGAL::Delaunay_triangulation_2<Kernel2> &t) { return t.number_of_faces(); }
static size_t cells(const CGAL::Delaunay_triangulation_3<Plain> &t) { return t.number_of_finite_cells(); }
static size_t cells(const CGAL::Delaunay_triangulation_3<Kernel3> &t) { return t.number_of_finite_cells(); }

template <class T, class P> static double seconds(T &t, const std::vector<P> &points) {
  clock_t began = clock();
  t.insert(points.begin(), points.end());
  return (double)(clock() - began) / CLOCKS_PER_SEC;
}

// whether all is as it should be
template <class Mine, class Theirs, class P, class Base> static bool tried(int D, const char *name, int64_t wanted) {
  std::vector<P> mine;
  std::vector<Base> theirs;
  for (const Place &at : scene(D, name, wanted)) {
    theirs.push_back(made(at, (Base *)nullptr));
    mine.push_back(site(theirs.back(), static_cast<std::int64_t>(mine.size())));
  }
  Mine m;
  Theirs t;
  double emitted = seconds(m, mine), own = seconds(t, theirs);
  bool fine = m.is_valid() && m.dimension() == D && m.number_of_vertices() == mine.size();
  if (std::string(name) == "random") fine = fine && cells(m) == cells(t);
  // what bench/c reads: the scene, and the two times
  printf("%dD %s, %zu points;%.4f;%.4f;%zu cells, CGAL %zu%s\n", D, name, mine.size(), emitted, own, cells(m), cells(t), fine ? "" : "  BAD");
  fflush(stdout);
  return fine;
}

int main(int count, char **words) {
  int64_t wanted = count > 1 ? atoll(words[1]) : 100000;
  bool fine = true;
  for (const char *name : {"random", "grid", "line"})
    fine &= tried<CGAL::Delaunay_triangulation_2<Kernel2>, CGAL::Delaunay_triangulation_2<Plain>, Site2, Plain::Point_2>(
        2, name, std::string(name) == "line" ? wanted / 10 : wanted);
  for (const char *name : {"random", "grid"})
    fine &= tried<CGAL::Delaunay_triangulation_3<Kernel3>, CGAL::Delaunay_triangulation_3<Plain>, Site3, Plain::Point_3>(3, name, wanted);
  return fine ? 0 : 1;
}
