// Nanoseconds a call of the ready-made predicates, of CGAL's exact ones (Exact_predicates_inexact_constructions_kernel) and of Shewchuk's (in TetGen's
// library, with SHEWCHUK), on the same rows in one run: seconds of processor of each thousand rows, the best of the rounds. A line for each predicate and
// each of them, with a column for each kind of rows. On rows whose plain value is 0 the ready-made ones answer with the perturbed sign, the others
// with 0; elsewhere all have to say the same. With LNC_CHECKED the ready-made ones alone, which test their arguments. Built and run by bench/c.
#include <CGAL/Exact_predicates_inexact_constructions_kernel.h>
#include <algorithm>
#include <array>
#include <cstdint>
#include <cstdio>
#include <cstdlib>
#include <ctime>
#include <functional>
#include <lnc_plane.h>
#include <lnc_space.h>
#include <lnc_weighted_plane.h>
#include <lnc_weighted_space.h>
#include <numeric>
#include <string>
#include <utility>
#include <vector>

#ifdef SHEWCHUK
void exactinit(int verbose, int noexact, int nofilter, double x, double y, double z);
double orient2d(double *a, double *b, double *c);
double incircle(double *a, double *b, double *c, double *d);
double orient3d(double *a, double *b, double *c, double *d);
double insphere(double *a, double *b, double *c, double *d, double *e);
#endif

typedef CGAL::Exact_predicates_inexact_constructions_kernel K;

static uint64_t state = 88172645463325252u;
static uint64_t next() {
  state ^= state << 13;
  state ^= state >> 7;
  state ^= state << 17;
  return state;
}
static int64_t within(int64_t most) { return (int64_t)(next() % (uint64_t)(2 * most + 1)) - most; }

typedef std::array<int64_t, 3> Place;
typedef std::vector<Place> Row;

// rows of points in D coordinates, each at most this large
struct Kind {
  int sites, D;
  int64_t most;

  Place place(int64_t far) const { return {within(far), within(far), D == 3 ? within(far) : 0}; }
  Row at_random(int64_t far) const {
    Row row;
    while ((int)row.size() < sites) row.push_back(place(far));
    return row;
  }
  // within a 512th of the range from one place
  Row near() const {
    const Place at = place(most - most / 512);
    Row row = at_random(most / 512);
    for (Place &p : row)
      for (int k = 0; k < 3; k++) p[k] += at[k];
    return row;
  }
  // on a line of the plane, or in a plane of space
  Row flat() const {
    const Place at = place(most / 2), one = place(most / 200), other = place(most / 200);
    Row row;
    while ((int)row.size() < sites) {
      const int64_t s = within(30), t = D == 3 ? within(30) : 0;
      row.push_back({at[0] + s * one[0] + t * other[0], at[1] + s * one[1] + t * other[1], at[2] + s * one[2] + t * other[2]});
    }
    return row;
  }
  // on a circle or a sphere, none twice: a centre, and the coordinates of one vector with their signs and places changed
  Row round() const {
    const Place at = place(most / 2), far = place(most / 2 - 1);
    Row row;
    while ((int)row.size() < sites) {
      Place p = far;
      for (int k = D - 1; k > 0; k--) std::swap(p[k], p[next() % (k + 1)]);
      for (int k = 0; k < D; k++) p[k] = at[k] + (next() % 2 ? p[k] : -p[k]);
      if (std::find(row.begin(), row.end(), p) == row.end() || next() % 64 == 0) row.push_back(p);
    }
    return row;
  }
  Row twice() const {
    Row row = at_random(most);
    const int k = next() % sites;
    row[k] = row[(k + 1 + next() % (sites - 1)) % sites];
    return row;
  }
};

static const char *const KINDS[] = {"random", "near one another", "from -2 to 2", "degenerate", "two equal"};
static std::vector<Row> rows(const Kind &kind, int which, int count) {
  const bool is_flat = kind.sites == kind.D + 1;
  std::vector<Row> all;
  while ((int)all.size() < count)
    all.push_back(which == 0 ? kind.at_random(kind.most) : which == 1 ? kind.near() : which == 2 ? kind.at_random(2) :
                  which == 4 ? kind.twice() : is_flat ? kind.flat() : kind.round());
  return all;
}

static double now() {
  struct timespec t;
  clock_gettime(CLOCK_THREAD_CPUTIME_ID, &t);
  return (double)t.tv_sec + 1e-9 * (double)t.tv_nsec;
}

// of each thousand rows the best seconds so far, and the signs of all
struct Best {
  std::vector<double> seconds;
  std::vector<signed char> signs;

  template <class Call> void pass(int count, Call call) {
    signs.resize(count);
    seconds.resize((count + 999) / 1000, 1e9);
    for (size_t k = 0; k < seconds.size(); k++) {
      const int from = 1000 * (int)k, to = std::min(from + 1000, count);
      const double began = now();
      for (int i = from; i < to; i++) signs[i] = (signed char)call(i);
      seconds[k] = std::min(seconds[k], now() - began);
    }
  }
  double each() const { return std::accumulate(seconds.begin(), seconds.end(), 0.0) / (double)signs.size() * 1e9; }
};

static int count = 10000, rounds = 15, bad = 0;

// what is made of the rows: a point of each kind for each place
static lnc::point2 made(const Place &p, int64_t i, lnc::point2 *) { return {i, p[0], p[1]}; }
static lnc::point3 made(const Place &p, int64_t i, lnc::point3 *) { return {i, p[0], p[1], p[2]}; }
static lnc::weighted2 made(const Place &p, int64_t i, lnc::weighted2 *) { return {i, p[0], p[1], 0}; }
static lnc::weighted3 made(const Place &p, int64_t i, lnc::weighted3 *) { return {i, p[0], p[1], p[2], 0}; }
static K::Point_2 made(const Place &p, int64_t, K::Point_2 *) { return {(double)p[0], (double)p[1]}; }
static K::Point_3 made(const Place &p, int64_t, K::Point_3 *) { return {(double)p[0], (double)p[1], (double)p[2]}; }
static K::Weighted_point_2 made(const Place &p, int64_t, K::Weighted_point_2 *) { return {K::Point_2((double)p[0], (double)p[1]), 0.0}; }
static K::Weighted_point_3 made(const Place &p, int64_t, K::Weighted_point_3 *) { return {K::Point_3((double)p[0], (double)p[1], (double)p[2]), 0.0}; }
struct Doubles { double at[3]; };
static Doubles made(const Place &p, int64_t, Doubles *) { return {{(double)p[0], (double)p[1], (double)p[2]}}; }

template <class P> static std::vector<P> points(const std::vector<Row> &all) {
  std::vector<P> them;
  for (const Row &row : all) {
    std::vector<int64_t> own(row.size());
    std::iota(own.begin(), own.end(), (int64_t)(next() % 1000000));
    for (size_t i = own.size() - 1; i > 0; i--) std::swap(own[i], own[next() % (i + 1)]);
    for (size_t i = 0; i < row.size(); i++) them.push_back(made(row[i], own[i], (P *)nullptr));
  }
  return them;
}
template <class P, class Call, size_t... N> static Best timed(const std::vector<P> &them, Call call, std::index_sequence<N...>) {
  P *const at = const_cast<P *>(them.data());
  Best best;
  for (int round = 0; round < rounds; round++) best.pass(count, [=](int i) { return call(at[sizeof...(N) * i + N]...); });
  return best;
}

struct None {};
static int sign(double value) { return (value > 0) - (value < 0); }

// turn is -1 where a positive sign of CGAL is a negative one of the others
template <int S, int D, class Mine, class Theirs, class Call, class Ask, class Old>
static void subject(const char *name, int bits, int turn, Call call, Ask ask, Old old) {
  const std::make_index_sequence<S> sites;
  std::string lines[3];
  const char *const who[3] = {"predicates/", "CGAL", "Shewchuk"};
  int some = 0;
  for (int which = 0; which < 5; which++) {
    const std::vector<Row> all = rows(Kind{S, D, INT64_C(1) << bits}, which, count);
    Best best[3] = {timed(points<Mine>(all), call, sites), {}, {}};
    some = 1;
#ifndef LNC_CHECKED
    best[1] = timed(points<Theirs>(all), ask, sites);
    some = 2;
    if constexpr (!std::is_same<Old, None>::value) {
      best[2] = timed(points<Doubles>(all), old, sites);
      some = 3;
    }
    int zero = 0, differ = 0;
    for (int i = 0; i < count; i++) {
      const int theirs = turn * best[1].signs[i], mine = best[0].signs[i];
      zero += theirs == 0;
      differ += mine == 0 || (theirs != 0 && mine != theirs) || (some == 3 && best[2].signs[i] != theirs);
    }
    if (differ) {
      fprintf(stderr, "%s, %s: %d rows differ\n", name, KINDS[which], differ);
      bad = 1;
    }
    fprintf(stderr, "%s, %s: %d of %d rows of plain value 0\n", name, KINDS[which], zero, count);
#endif
    for (int k = 0; k < some; k++) {
      char text[40];
      snprintf(text, sizeof text, " %.*f |", best[k].each() < 9.95 ? 1 : 0, best[k].each());
      lines[k] += text;
    }
  }
  (void)turn, (void)ask, (void)old;
  for (int k = 0; k < some; k++) {
#ifdef LNC_CHECKED
    printf("| `%s` | calls that check |%s\n", name, lines[k].c_str());
#else
    printf("| `%s` | %s |%s\n", name, who[k], lines[k].c_str());
#endif
  }
  fflush(stdout);
}

#define CALL(NAME) [](const auto &...s) { return lnc::NAME(s...); }
#define ASK(NAME) [](const auto &...s) { return (int)K::NAME()(s...); }
#ifdef SHEWCHUK
#define OLD(NAME) [](auto &...s) { return sign(NAME(s.at...)); }
#else
#define OLD(NAME) None()
#endif

int main(int words, char **word) {
  if (words > 1) count = atoi(word[1]);
#ifdef SHEWCHUK
  exactinit(0, 0, 1, 1, 1, 1);
#endif
  subject<3, 2, lnc::point2, K::Point_2>("orient2", 29, 1, CALL(orient2), ASK(Orientation_2), OLD(orient2d));
  subject<4, 2, lnc::point2, K::Point_2>("incircle", 29, 1, CALL(incircle), ASK(Side_of_oriented_circle_2), OLD(incircle));
#ifndef LNC_CHECKED
  subject<4, 3, lnc::point3, K::Point_3>("orient3", 23, -1, CALL(orient3), ASK(Orientation_3), OLD(orient3d));
  subject<5, 3, lnc::point3, K::Point_3>("insphere", 23, -1, CALL(insphere), ASK(Side_of_oriented_sphere_3), OLD(insphere));
  subject<4, 2, lnc::weighted2, K::Weighted_point_2>("power2", 29, 1, CALL(power2), ASK(Power_side_of_oriented_power_circle_2), None());
  subject<5, 3, lnc::weighted3, K::Weighted_point_3>("power3", 23, -1, CALL(power3), ASK(Power_side_of_oriented_power_sphere_3), None());
#endif
  return bad;
}
