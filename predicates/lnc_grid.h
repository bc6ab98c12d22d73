/* lnc_grid.h: from doubles to the integers of a family of predicates and back, in C and C++. One file to include; nothing else to compile.

   A grid has a step, which is a power of two and the same for all coordinates, and an origin, a multiple of the step for each. The coordinate of a double
   is the multiple of the step nearest to it, less the origin, and of two that are equally near the even one. The way back is exact: each coordinate in
   range is that of one double. Coordinates are computed in integers, so neither the rounding mode nor -ffast-math changes them.

       ln_grid grid;
       if (ln_grid_make(&grid, 2, n, points, LN_POINT2_X_MIN, LN_POINT2_X_MAX) != LN_GRID_DONE) ..   points: x, y of each
       ln_point2 p = {i, grid.at[2 * i], grid.at[2 * i + 1]};                                        of point i; grid.first[i] is i, or the
       ..                                                                                             earlier point at the same place
       ln_grid_free(&grid);

   In C++ lnc::grid does the same and frees itself. */
#ifndef LNC_GRID_H
#define LNC_GRID_H
#include <stddef.h>
#include <stdint.h>
#include <stdlib.h>
#include <string.h>

#ifdef __cplusplus
#define LN_GRID_AS(type, value) static_cast<type>(value)
extern "C" {
#else
#define LN_GRID_AS(type, value) ((type)(value))
#endif

enum { LN_GRID_MOST = 8 };

/* how a call ends */
enum {
  LN_GRID_DONE,
  LN_GRID_TAKEN,      /* another point is there already */
  LN_GRID_RANGE,      /* out of range */
  LN_GRID_NOT_FINITE, /* a coordinate is NaN or infinite */
  LN_GRID_MEMORY      /* out of memory */
};

typedef struct ln_grid {
  int dimension, power;         /* coordinates of a point, 1 to LN_GRID_MOST; the step is 2^-power */
  int64_t low, high;            /* the range of each coordinate: that of the family, or where this has over 2^53 steps its middle part */
  int64_t origin[LN_GRID_MOST]; /* in steps */
  size_t count, room;           /* points so far */
  int64_t *at;                  /* the coordinates of each */
  size_t *first;                /* of each the first point at its place: itself, or an earlier one */
  size_t equal, merged;         /* points at the place of an earlier one, and of these such that weren't in doubles */
  size_t refused;               /* where ln_grid_make ends with LN_GRID_NOT_FINITE, the point */
  double move;                  /* the largest move of a coordinate, at most half a step */
  double *given;                /* the points as they were given */
  size_t *slots, mask;          /* a hash table of the places: numbers of points plus 1 */
} ln_grid;

/* a finite double as sign * mantissa * 2^exponent */
typedef struct ln_grid_parts { int negative, exponent; uint64_t mantissa; } ln_grid_parts;

static inline int ln_grid_is_finite(double value) {
  uint64_t bits;
  memcpy(&bits, &value, sizeof bits);
  return (bits >> 52 & 2047) != 2047;
}

/* an integer in the order of the doubles: the same for 0 and -0 */
static inline int64_t ln_grid_order(double value) {
  uint64_t bits;
  memcpy(&bits, &value, sizeof bits);
  const int64_t size = LN_GRID_AS(int64_t, bits & (UINT64_MAX >> 1));
  return bits >> 63 ? -size : size;
}

static inline ln_grid_parts ln_grid_split(double value) {
  uint64_t bits;
  memcpy(&bits, &value, sizeof bits);
  const int biased = LN_GRID_AS(int, bits >> 52 & 2047);
  const uint64_t rest = bits & ((UINT64_C(1) << 52) - 1);
  const ln_grid_parts parts = {LN_GRID_AS(int, bits >> 63), (biased ? biased : 1) - 1075, biased ? rest | UINT64_C(1) << 52 : rest};
  return parts;
}

/* value * 2^power to the nearest integer, ties to even; past +-2^62 it is +-2^62 */
static inline int64_t ln_grid_scaled(double value, int power) {
  const ln_grid_parts parts = ln_grid_split(value);
  const int shift = parts.exponent + power;
  uint64_t whole = parts.mantissa;
  if (shift > 9) whole = whole ? UINT64_C(1) << 62 : 0;
  else if (shift >= 0) whole <<= shift;
  else if (shift < -53) whole = 0;
  else {
    const uint64_t rest = whole & ((UINT64_C(1) << -shift) - 1), half = UINT64_C(1) << (-shift - 1);
    whole >>= -shift;
    if (rest > half || (rest == half && (whole & 1))) whole++;
  }
  return parts.negative ? -LN_GRID_AS(int64_t, whole) : LN_GRID_AS(int64_t, whole);
}

/* whole * 2^-power for |whole| up to 2^53, which is exact; infinite past the largest double */
static inline double ln_grid_unscaled(int64_t whole, int power) {
  uint64_t size = whole < 0 ? -LN_GRID_AS(uint64_t, whole) : LN_GRID_AS(uint64_t, whole), bits = 0;
  int exponent = 1075 - power;
  if (size >> 53) {
    size >>= 1;
    exponent++;
  }
  if (size) {
    /* to 53 bits, but of a denormal number fewer */
    int shift = __builtin_clzll(size) - 11;
    if (shift > exponent - 1) shift = exponent - 1;
    size <<= shift;
    exponent -= shift;
    if (exponent > 2046) bits = UINT64_C(2047) << 52;
    else bits = (size >> 52 ? LN_GRID_AS(uint64_t, exponent) << 52 : 0) | (size & ((UINT64_C(1) << 52) - 1));
  }
  if (whole < 0) bits |= UINT64_C(1) << 63;
  double value;
  memcpy(&value, &bits, sizeof value);
  return value;
}

/* the origin of a coordinate for this power; 0 where the box doesn't fit */
static inline int ln_grid_fits(const ln_grid *grid, int power, double from, double to, int64_t *origin) {
  const int64_t most = INT64_C(1) << 53, low = grid->low, high = grid->high;
  const int64_t first = ln_grid_scaled(from, power), last = ln_grid_scaled(to, power);
  if (first < -most || last > most || last - first > high - low) return 0;
  if (!ln_grid_is_finite(ln_grid_unscaled(first, power)) || !ln_grid_is_finite(ln_grid_unscaled(last, power))) return 0;
  /* the box in the middle of the range, but the whole range within 2^53 steps from 0 */
  const int64_t least = last - high, greatest = first - low;
  int64_t middle = least + (greatest - least) / 2;
  if (middle < -most - low) middle = -most - low;
  if (middle > most - high) middle = most - high;
  *origin = middle;
  return least <= middle && middle <= greatest;
}

/* The grid with the smallest step over a box, for coordinates from low to high, with no point yet. Take a box that later points are in too. Ends with
   LN_GRID_DONE, LN_GRID_NOT_FINITE, or LN_GRID_RANGE where a range has no room for a box or an end is within half a step of 2^1024 */
static inline int ln_grid_over(ln_grid *grid, int dimension, const double *from, const double *to, int64_t low, int64_t high) {
  const int64_t large = INT64_C(1) << 62, half = INT64_C(1) << 52;
  memset(grid, 0, sizeof *grid);
  if (low < -large) low = -large;
  if (high > large) high = large;
  if (dimension < 1 || dimension > LN_GRID_MOST || low > high) return LN_GRID_RANGE;
  if (high / 2 - low / 2 > half) {
    const int64_t middle = low / 2 + high / 2;
    low = middle - half;
    high = middle + half;
  }
  grid->dimension = dimension;
  grid->low = low;
  grid->high = high;
  for (int i = 0; i < dimension; i++) {
    if (!ln_grid_is_finite(from[i]) || !ln_grid_is_finite(to[i])) return LN_GRID_NOT_FINITE;
    if (ln_grid_order(from[i]) > ln_grid_order(to[i])) return LN_GRID_RANGE;
  }
  for (grid->power = 1074; grid->power >= -1023; grid->power--) {
    int i = 0;
    while (i < dimension && ln_grid_fits(grid, grid->power, from[i], to[i], &grid->origin[i])) i++;
    if (i == dimension) return LN_GRID_DONE;
  }
  return LN_GRID_RANGE;
}

/* The coordinates of a point: LN_GRID_DONE, LN_GRID_NOT_FINITE, or LN_GRID_RANGE */
static inline int ln_grid_snap(const ln_grid *grid, const double *point, int64_t *coordinates) {
  for (int i = 0; i < grid->dimension; i++)
    if (!ln_grid_is_finite(point[i])) return LN_GRID_NOT_FINITE;
  for (int i = 0; i < grid->dimension; i++) {
    const int64_t whole = ln_grid_scaled(point[i], grid->power);
    coordinates[i] = whole - grid->origin[i];
    if (coordinates[i] < grid->low || coordinates[i] > grid->high || !ln_grid_is_finite(ln_grid_unscaled(whole, grid->power))) return LN_GRID_RANGE;
  }
  return LN_GRID_DONE;
}

/* The point that coordinates in range are of, exactly */
static inline void ln_grid_back(const ln_grid *grid, const int64_t *coordinates, double *point) {
  for (int i = 0; i < grid->dimension; i++) point[i] = ln_grid_unscaled(grid->origin[i] + coordinates[i], grid->power);
}

/* The length of a step */
static inline double ln_grid_step(const ln_grid *grid) { return ln_grid_unscaled(1, grid->power); }

/* A weight, whose unit is a squared length: the multiple of the squared step nearest to it, from low to high; or as ln_grid_snap */
static inline int ln_grid_weight(const ln_grid *grid, double weight, int64_t low, int64_t high, int64_t *whole) {
  if (!ln_grid_is_finite(weight)) return LN_GRID_NOT_FINITE;
  *whole = ln_grid_scaled(weight, 2 * grid->power);
  return low <= *whole && *whole <= high ? LN_GRID_DONE : LN_GRID_RANGE;
}

/* The slot of the hash table for these coordinates: that of the first point there, or an empty one */
static inline size_t ln_grid_slot(const ln_grid *grid, const int64_t *coordinates) {
  const size_t size = LN_GRID_AS(size_t, grid->dimension) * sizeof *coordinates;
  uint64_t hash = 0;
  for (int i = 0; i < grid->dimension; i++) {
    hash = (hash ^ LN_GRID_AS(uint64_t, coordinates[i])) * UINT64_C(0x9e3779b97f4a7c15);
    hash ^= hash >> 29;
  }
  size_t slot = LN_GRID_AS(size_t, hash) & grid->mask;
  while (grid->slots[slot] && memcmp(grid->at + (grid->slots[slot] - 1) * LN_GRID_AS(size_t, grid->dimension), coordinates, size))
    slot = (slot + 1) & grid->mask;
  return slot;
}

/* The first point at these coordinates; SIZE_MAX where there is none */
static inline size_t ln_grid_find(const ln_grid *grid, const int64_t *coordinates) {
  const size_t found = grid->slots ? grid->slots[ln_grid_slot(grid, coordinates)] : 0;
  return found ? found - 1 : SIZE_MAX;
}

/* room for this many points, and a hash table that is at most half full */
static inline int ln_grid_reserve(ln_grid *grid, size_t points) {
  const size_t each = LN_GRID_AS(size_t, grid->dimension) * sizeof(double);
  if (points <= grid->room) return LN_GRID_DONE;
  if (points > SIZE_MAX / 4 / each) return LN_GRID_MEMORY;
  size_t slots = 16;
  while (slots / 2 < points) slots *= 2;
  int64_t *at = LN_GRID_AS(int64_t *, realloc(grid->at, points * each));
  if (at) grid->at = at;
  double *given = LN_GRID_AS(double *, realloc(grid->given, points * each));
  if (given) grid->given = given;
  size_t *first = LN_GRID_AS(size_t *, realloc(grid->first, points * sizeof *first));
  if (first) grid->first = first;
  size_t *table = LN_GRID_AS(size_t *, calloc(slots, sizeof *table));
  if (!at || !given || !first || !table) {
    free(table);
    return LN_GRID_MEMORY;
  }
  free(grid->slots);
  grid->slots = table;
  grid->mask = slots - 1;
  grid->room = points;
  for (size_t i = 0; i < grid->count; i++)
    if (grid->first[i] == i) table[ln_grid_slot(grid, grid->at + i * LN_GRID_AS(size_t, grid->dimension))] = i + 1;
  return LN_GRID_DONE;
}

/* Takes a point whether or not another is at its place; *number is its own, counted from 0. Otherwise as ln_grid_snap, or LN_GRID_MEMORY */
static inline int ln_grid_put(ln_grid *grid, const double *point, size_t *number) {
  const size_t dimension = LN_GRID_AS(size_t, grid->dimension), own = grid->count;
  int64_t coordinates[LN_GRID_MOST];
  double back[LN_GRID_MOST];
  int end = ln_grid_snap(grid, point, coordinates);
  if (end == LN_GRID_DONE && own == grid->room) end = ln_grid_reserve(grid, own ? 2 * own : 16);
  if (end != LN_GRID_DONE) return end;
  ln_grid_back(grid, coordinates, back);
  for (size_t i = 0; i < dimension; i++) {
    const double move = point[i] < back[i] ? back[i] - point[i] : point[i] - back[i];
    if (move > grid->move) grid->move = move;
    grid->at[own * dimension + i] = coordinates[i];
    grid->given[own * dimension + i] = point[i];
  }
  const size_t slot = ln_grid_slot(grid, coordinates);
  if (!grid->slots[slot]) grid->slots[slot] = own + 1;
  const size_t first = grid->slots[slot] - 1;
  int differ = 0;
  for (size_t i = 0; i < dimension; i++) differ |= ln_grid_order(point[i]) != ln_grid_order(grid->given[first * dimension + i]);
  grid->first[own] = first;
  grid->equal += first != own;
  grid->merged += first != own && differ;
  *number = grid->count++;
  return LN_GRID_DONE;
}

/* Takes a later point, where none is yet; *number is its own, or with LN_GRID_TAKEN the one that is there. Otherwise as ln_grid_put */
static inline int ln_grid_add(ln_grid *grid, const double *point, size_t *number) {
  int64_t coordinates[LN_GRID_MOST];
  const int end = ln_grid_snap(grid, point, coordinates);
  if (end != LN_GRID_DONE) return end;
  const size_t there = ln_grid_find(grid, coordinates);
  if (there == SIZE_MAX) return ln_grid_put(grid, point, number);
  *number = there;
  return LN_GRID_TAKEN;
}

static inline void ln_grid_free(ln_grid *grid) {
  free(grid->at);
  free(grid->first);
  free(grid->given);
  free(grid->slots);
  memset(grid, 0, sizeof *grid);
}

/* The grid over the bounding box of n points, with the points; each has `dimension` doubles. Ends as ln_grid_over, where a point is at fault with its
   number in `refused`, or with LN_GRID_MEMORY; then nothing has to be freed */
static inline int ln_grid_make(ln_grid *grid, int dimension, size_t n, const double *points, int64_t low, int64_t high) {
  double from[LN_GRID_MOST] = {0}, to[LN_GRID_MOST] = {0};
  const size_t each = LN_GRID_AS(size_t, dimension);
  if (dimension < 1 || dimension > LN_GRID_MOST) return LN_GRID_RANGE;
  for (size_t k = 0; k < n * each; k++) {
    const size_t i = k % each;
    if (!ln_grid_is_finite(points[k])) {
      memset(grid, 0, sizeof *grid);
      grid->refused = k / each;
      return LN_GRID_NOT_FINITE;
    }
    if (k < each || ln_grid_order(points[k]) < ln_grid_order(from[i])) from[i] = points[k];
    if (k < each || ln_grid_order(points[k]) > ln_grid_order(to[i])) to[i] = points[k];
  }
  int end = ln_grid_over(grid, dimension, from, to, low, high);
  if (end == LN_GRID_DONE) end = ln_grid_reserve(grid, n);
  size_t number;
  for (size_t i = 0; end == LN_GRID_DONE && i < n; i++) end = ln_grid_put(grid, points + i * each, &number);
  if (end != LN_GRID_DONE) {
    ln_grid_free(grid);
    grid->refused = n;
  }
  return end;
}

#ifdef __cplusplus
}
#include <cstddef>
#include <cstdint>
namespace lnc {
/* A grid that frees itself. `end` is how making it ended, one of LN_GRID_DONE, .. */
class grid {
  ln_grid it;

public:
  int end;
  grid(int dimension, std::size_t n, const double *points, std::int64_t low, std::int64_t high)
      : end(ln_grid_make(&it, dimension, n, points, low, high)) {}
  grid(int dimension, const double *from, const double *to, std::int64_t low, std::int64_t high)
      : end(ln_grid_over(&it, dimension, from, to, low, high)) {}
  ~grid() { ln_grid_free(&it); }
  grid(const grid &) = delete;
  grid &operator=(const grid &) = delete;
  std::size_t count() const { return it.count; }
  const std::int64_t *operator[](std::size_t point) const { return it.at + point * static_cast<std::size_t>(it.dimension); }
  std::size_t first(std::size_t point) const { return it.first[point]; }
  std::size_t equal() const { return it.equal; }
  std::size_t merged() const { return it.merged; }
  double move() const { return it.move; }
  double step() const { return ln_grid_step(&it); }
  int snap(const double *point, std::int64_t *coordinates) const { return ln_grid_snap(&it, point, coordinates); }
  int add(const double *point, std::size_t *number) { return ln_grid_add(&it, point, number); }
  void back(const std::int64_t *coordinates, double *point) const { ln_grid_back(&it, coordinates, point); }
  const ln_grid &plain() const { return it; }
};
}
#endif
#undef LN_GRID_AS
#endif
