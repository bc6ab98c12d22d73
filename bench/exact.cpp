// Nanoseconds a call on the same rows in one run: C with the filter (`lnc emit`), C without (`lnc_exact`), a determinant written by hand
// (bench/plain.c), and CGAL's exact predicates (Exact_predicates_inexact_constructions_kernel). For each predicate rows at random, points near
// one another, and rows whose plain value is 0: these CGAL and the determinant answer with 0, the other two with the perturbed sign. Where CGAL's
// answer isn't 0, all four have to say the same. Built and run by bench/c.
#include <CGAL/Exact_predicates_inexact_constructions_kernel.h>
#include <algorithm>
#include <chrono>
#include <cstdint>
#include <cstdio>
#include <cstdlib>
#include <numeric>
#include <utility>
#include <vector>

typedef int Call(const int64_t *x, const int64_t *v);

extern "C" {
Call ln_orient, ln_wide, ln_orient3, ln_incircle, ln_minors, ln_insphere;
Call exact_orient, exact_wide, exact_orient3, exact_incircle, exact_minors, exact_insphere;
Call plain_orient, plain_wide, plain_orient3, plain_incircle, plain_insphere;
}

typedef CGAL::Exact_predicates_inexact_constructions_kernel K;

static uint64_t state = 88172645463325252u;

static uint64_t next() {
  state ^= state << 13;
  state ^= state >> 7;
  state ^= state << 17;
  return state;
}

// from -most to most
static int64_t within(int64_t most) { return (int64_t)(next() % (uint64_t)(2 * most + 1)) - most; }

// The rows of one measurement: for each its indices and its values.
struct Rows {
  int sites, coordinates;
  std::vector<int64_t> indices, values;

  void index() {
    int64_t from = next() % 1000000;
    std::vector<int64_t> own;
    for (int i = 0; i < sites; i++) own.push_back(from + i);
    for (int i = sites - 1; i > 0; i--) std::swap(own[i], own[next() % (i + 1)]);
    indices.insert(indices.end(), own.begin(), own.end());
  }
};

static Rows at_random(int sites, int coordinates, int64_t most, int count) {
  Rows rows{sites, coordinates, {}, {}};
  for (int i = 0; i < count; i++) {
    rows.index();
    for (int k = 0; k < sites * coordinates; k++) rows.values.push_back(within(most));
  }
  return rows;
}

// the points of a row are at most this far from one place, by each coordinate
static Rows near_by(int sites, int coordinates, int64_t most, int count) {
  const int64_t far = std::max(most / 512, INT64_C(30));
  Rows rows{sites, coordinates, {}, {}};
  for (int i = 0; i < count; i++) {
    rows.index();
    std::vector<int64_t> place;
    for (int k = 0; k < coordinates; k++) place.push_back(within(most - far));
    for (int k = 0; k < sites * coordinates; k++) rows.values.push_back(place[k % coordinates] + within(far));
  }
  return rows;
}

// three points on a line
static Rows on_lines(int64_t most, int count) {
  Rows rows{3, 2, {}, {}};
  for (int i = 0; i < count; i++) {
    rows.index();
    int64_t x = within(most / 2), y = within(most / 2), dx = within(most / 200), dy = within(most / 200);
    for (int k = 0; k < 3; k++) {
      int64_t t = within(100);
      rows.values.push_back(x + t * dx);
      rows.values.push_back(y + t * dy);
    }
  }
  return rows;
}

// four points in a plane
static Rows in_planes(int64_t most, int count) {
  Rows rows{4, 3, {}, {}};
  for (int i = 0; i < count; i++) {
    rows.index();
    int64_t place[3], one[3], other[3];
    for (int k = 0; k < 3; k++) place[k] = within(most / 2), one[k] = within(most / 200), other[k] = within(most / 200);
    for (int n = 0; n < 4; n++) {
      int64_t s = within(30), t = within(30);
      for (int k = 0; k < 3; k++) rows.values.push_back(place[k] + s * one[k] + t * other[k]);
    }
  }
  return rows;
}

// four points on a circle, or five on a sphere, none twice: a centre, and the coordinates of one vector with their signs and places changed
static Rows on_spheres(int coordinates, int64_t most, int count) {
  Rows rows{coordinates + 2, coordinates, {}, {}};
  for (int i = 0; i < count; i++) {
    rows.index();
    int64_t centre[3], vector[3];
    for (int k = 0; k < coordinates; k++) {
      centre[k] = within(most / 2);
      vector[k] = 1 + (int64_t)(next() % (uint64_t)(most / 2 - 1));
    }
    std::vector<std::vector<int64_t>> points;
    while ((int)points.size() < rows.sites) {
      int64_t turned[3] = {vector[0], vector[1], vector[2]};
      for (int k = coordinates - 1; k > 0; k--) std::swap(turned[k], turned[next() % (k + 1)]);
      std::vector<int64_t> point;
      for (int k = 0; k < coordinates; k++) point.push_back(centre[k] + (next() % 2 ? turned[k] : -turned[k]));
      if (std::find(points.begin(), points.end(), point) == points.end()) points.push_back(point);
    }
    for (auto &point : points) rows.values.insert(rows.values.end(), point.begin(), point.end());
  }
  return rows;
}

static std::vector<K::Point_2> points_2(const Rows &rows) {
  std::vector<K::Point_2> points;
  for (size_t i = 0; i < rows.values.size(); i += 2) points.emplace_back((double)rows.values[i], (double)rows.values[i + 1]);
  return points;
}

static std::vector<K::Point_3> points_3(const Rows &rows) {
  std::vector<K::Point_3> points;
  for (size_t i = 0; i < rows.values.size(); i += 3)
    points.emplace_back((double)rows.values[i], (double)rows.values[i + 1], (double)rows.values[i + 2]);
  return points;
}

// of each thousand rows the best seconds so far, and the signs of all
struct Best {
  std::vector<double> seconds;
  std::vector<signed char> signs;

  template <class Call> void pass(int count, Call call) {
    signs.resize(count);
    seconds.resize((count + 999) / 1000, 1e9);
    for (size_t k = 0; k < seconds.size(); k++) {
      int from = 1000 * (int)k, to = std::min(from + 1000, count);
      auto began = std::chrono::steady_clock::now();
      for (int i = from; i < to; i++) signs[i] = (signed char)call(i);
      seconds[k] = std::min(seconds[k], std::chrono::duration<double>(std::chrono::steady_clock::now() - began).count());
    }
  }

  double each() const { return std::accumulate(seconds.begin(), seconds.end(), 0.0) / (double)signs.size() * 1e9; }
};

static int bad = 0;

// A predicate, by the four; turn is -1 where a positive sign of CGAL is a negative one of the others.
struct Subject {
  const char *name;
  Call *with, *without, *plain;
  int turn;
};

template <class Other> static void measure(const Subject &of, const char *kind, const Rows &rows, Other other) {
  int count = (int)rows.indices.size() / rows.sites, wide = rows.sites * rows.coordinates, zero = 0, differ = 0;
  const int64_t *x = rows.indices.data(), *v = rows.values.data();
  Call *const calls[3] = {of.with, of.without, of.plain};
  Best best[4];
  for (int round = 0; round < 15; round++) {
    for (int k = 0; k < 3; k++) {
      Call *call = calls[k];
      best[k].pass(count, [=](int i) { return call(x + (size_t)i * rows.sites, v + (size_t)i * wide); });
    }
    best[3].pass(count, other);
  }
  for (int i = 0; i < count; i++) {
    int mine = best[0].signs[i], theirs = of.turn * best[3].signs[i];
    zero += theirs == 0;
    differ += mine == 0 || best[1].signs[i] != mine || best[2].signs[i] != theirs || (theirs != 0 && mine != theirs);
  }
  // the limit: no slower than CGAL, but for the filter where points are near one another
  bool slow = best[1].each() > best[3].each() || (best[0].each() > best[3].each() && kind[0] != 'n');
  printf("%-9s %-10s", of.name, kind);
  for (const Best &of : best) printf(" %8.1f", of.each());
  printf("   %d rows, %d of plain value 0, %d differ%s\n", count, zero, differ, slow ? "  SLOWER" : "");
  fflush(stdout);
  if (differ || slow) bad = 1;
}

// CGAL's answers for rows of S points
template <class Ask, class P, size_t... N> static auto asked(const std::vector<P> &points, std::index_sequence<N...>) {
  const P *at = points.data();
  return [at](int i) { return (int)Ask()(at[sizeof...(N) * i + N]...); };
}

template <class Ask, int S, int D, class P>
static void subject(const Subject &of, int64_t most, int count, std::vector<P> (*points)(const Rows &), const Rows &degenerate) {
  auto tried = [&](const char *kind, const Rows &rows) {
    std::vector<P> at = points(rows);
    measure(of, kind, rows, asked<Ask>(at, std::make_index_sequence<S>()));
  };
  tried("random", at_random(S, D, most, count));
  tried("near", near_by(S, D, most, count));
  tried("degenerate", degenerate);
}

int main(int argc, char **argv) {
  int n = argc > 1 ? atoi(argv[1]) : 100000;
  const int64_t near = 1000, far = INT64_C(1) << 20, farthest = INT64_C(1) << 40;
  printf("%-9s %-10s %8s %8s %8s %8s   nanoseconds a call\n", "", "", "with", "without", "plain", "CGAL");
  subject<K::Orientation_2, 3, 2>({"orient", ln_orient, exact_orient, plain_orient, 1}, near, n, points_2, on_lines(near, n));
  subject<K::Orientation_2, 3, 2>({"wide", ln_wide, exact_wide, plain_wide, 1}, farthest, n, points_2, on_lines(farthest, n));
  // CGAL calls four points positive in the order that the samples call negative
  subject<K::Orientation_3, 4, 3>({"orient3", ln_orient3, exact_orient3, plain_orient3, -1}, far, n, points_3, in_planes(far, n));
  subject<K::Side_of_oriented_circle_2, 4, 2>({"incircle", ln_incircle, exact_incircle, plain_incircle, 1}, far, n, points_2, on_spheres(2, far, n));
  subject<K::Side_of_oriented_circle_2, 4, 2>({"minors", ln_minors, exact_minors, plain_incircle, 1}, far, n, points_2, on_spheres(2, far, n));
  subject<K::Side_of_oriented_sphere_3, 5, 3>({"insphere", ln_insphere, exact_insphere, plain_insphere, -1}, far, n, points_3, on_spheres(3, far, n));
  return bad;
}
