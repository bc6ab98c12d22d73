// Edges of convex hulls by two programs that share nothing with lnc.
//
// hull chain POINTS   the edges of a points file by Andrew's monotone chain, without perturbation: points on a side are left out
// hull slow POINTS    the edges by the definition: of every pair and every third point the sign of the perturbed orientation, which is that
//                     of the first coefficient that isn't 0
// hull cloud SEED N R a points file of N points from -R to R, no two alike and, where R is over 100, no three on a line
//
// `chain` and `slow` print the edges as `I J`, in order of the first point's record and then of the second's, and end with status 1 where
// they aren't one cycle.
#include <algorithm>
#include <cstdio>
#include <cstdlib>
#include <cstring>
#include <map>
#include <random>
#include <set>
#include <utility>
#include <vector>

struct Point { long long index, x, y; int record; };
typedef std::vector<std::pair<int, int>> Edges;

static long long turn(const Point &a, const Point &b, const Point &c) {
  return (b.x - a.x) * (c.y - a.y) - (b.y - a.y) * (c.x - a.x);
}

static std::vector<Point> read(const char *name) {
  std::vector<Point> points;
  std::FILE *file = std::fopen(name, "r");
  char header[200];
  if (!file || !std::fgets(header, sizeof header, file)) std::exit(2);
  Point p;
  while (std::fscanf(file, "%lld,%lld,%lld", &p.index, &p.x, &p.y) == 3) { p.record = (int)points.size(); points.push_back(p); }
  return points;
}

static Edges chain(std::vector<Point> points) {
  std::sort(points.begin(), points.end(), [](const Point &a, const Point &b) { return a.x != b.x ? a.x < b.x : a.y < b.y; });
  std::vector<int> hull;
  std::vector<Point> kept;
  for (int half = 0; half < 2; half++) {
    kept.clear();
    for (const Point &q : points) {
      while (kept.size() >= 2 && turn(kept[kept.size() - 2], kept.back(), q) <= 0) kept.pop_back();
      kept.push_back(q);
    }
    for (std::size_t i = 0; i + 1 < kept.size(); i++) hull.push_back(kept[i].record);
    std::reverse(points.begin(), points.end());
  }
  Edges edges;
  for (std::size_t i = 0; i < hull.size(); i++) edges.push_back({hull[i], hull[(i + 1) % hull.size()]});
  return edges;
}

// The sign of the orientation of a, b and c, each moved by infinitesimals: of a smaller index by larger ones, and in y by more than in x.
// With the indices in order the first of these that isn't 0 decides: the value, then the coefficients of a.y, a.x, b.y and a.x * b.y.
static int perturbed(Point a, Point b, Point c) {
  int sign = 1;
  if (a.index > b.index) { std::swap(a, b); sign = -sign; }
  if (b.index > c.index) { std::swap(b, c); sign = -sign; }
  if (a.index > b.index) { std::swap(a, b); sign = -sign; }
  for (long long k : {turn(a, b, c), c.x - b.x, b.y - c.y, a.x - c.x, 1LL})
    if (k) return k > 0 ? sign : -sign;
  return 0;
}

static Edges slow(const std::vector<Point> &points) {
  Edges edges;
  for (const Point &a : points)
    for (const Point &b : points) {
      bool all = a.record != b.record;
      for (const Point &c : points)
        all = all && (c.record == a.record || c.record == b.record || perturbed(a, b, c) > 0);
      if (all) edges.push_back({a.record, b.record});
    }
  return edges;
}

static bool is_cycle(const Edges &edges) {
  std::map<int, int> next(edges.begin(), edges.end());
  if (edges.empty() || next.size() != edges.size()) return edges.empty();
  std::size_t steps = 0;
  int at = edges[0].first;
  do { at = next.count(at) ? next[at] : edges[0].first; steps++; } while (at != edges[0].first);
  return steps == edges.size();
}

static void cloud(unsigned seed, int count, int reach) {
  std::mt19937 random(seed);
  std::vector<Point> points;
  std::set<long long> taken;
  while ((int)points.size() < count) {
    Point p = {0, (int)(random() % (2 * reach + 1)) - reach, (int)(random() % (2 * reach + 1)) - reach, 0};
    do p.index = random() % 1000; while (!taken.insert(p.index).second);
    bool fine = true;
    for (std::size_t i = 0; i < points.size(); i++) {
      fine = fine && (points[i].x != p.x || points[i].y != p.y);
      for (std::size_t j = 0; j < i; j++) fine = fine && (reach <= 100 || turn(points[i], points[j], p) != 0);
    }
    if (fine) points.push_back(p);
  }
  std::puts("point,point.x,point.y");
  for (const Point &p : points) std::printf("%lld,%lld,%lld\n", p.index, p.x, p.y);
}

int main(int count, char **words) {
  if (count == 5 && !std::strcmp(words[1], "cloud")) {
    cloud(std::atoi(words[2]), std::atoi(words[3]), std::atoi(words[4]));
    return 0;
  }
  if (count != 3) return 2;
  std::vector<Point> points = read(words[2]);
  Edges edges = std::strcmp(words[1], "chain") ? slow(points) : chain(points);
  std::sort(edges.begin(), edges.end());
  for (auto &e : edges) std::printf("%lld %lld\n", points[e.first].index, points[e.second].index);
  return is_cycle(edges) ? 0 : 1;
}
