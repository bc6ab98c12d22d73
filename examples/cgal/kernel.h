// Kernels for CGAL's Delaunay and regular triangulations in the plane and in space, over the ready-made predicates of predicates/. CGAL asks these functors
// in place of its own predicates, and is never answered that points lie on a line, on a circle, in a plane or on a sphere. In space a Delaunay
// triangulation is the regular one of points without weights (the lift), so that no cell inside is flat.
#ifndef KERNEL_H
#define KERNEL_H
#include <CGAL/Exact_predicates_inexact_constructions_kernel.h>
#include <lnc_plane.h>
#include <lnc_weighted_plane.h>
#include <lnc_weighted_space.h>
#include <stdexcept>

// CGAL's own kernel: its points hold the coordinates, and its predicates answer for the plain points
typedef CGAL::Exact_predicates_inexact_constructions_kernel Plain;

// an integer in the range of a family, tested once, where a point is made
inline std::int64_t whole(double c) {
  if (!(-0x1p62 <= c && c <= 0x1p62) || static_cast<double>(static_cast<std::int64_t>(c)) != c) throw std::domain_error("a coordinate is no integer: take a grid");
  return static_cast<std::int64_t>(c);
}
template <class Own> Own ranged(const Own &own) {
  if (!lnc::in_range(own)) throw std::out_of_range("a coordinate or an index is out of the range of the predicates");
  return own;
}

// Points of CGAL with an index of their own, and as the predicates take them. (Those that CGAL makes for itself are no sites, and are never asked about.)
struct Site2 : Plain::Point_2 {
  lnc::point2 own{-1, 0, 0};
  Site2() {}
  Site2(const Plain::Point_2 &at) : Plain::Point_2(at) {}
  Site2(const Plain::Point_2 &at, std::int64_t index) : Plain::Point_2(at), own(ranged(lnc::point2{index, whole(at.x()), whole(at.y())})) {}
};
template <class Base> struct Weighted2 : Base {
  lnc::weighted2 own{-1, 0, 0, 0};
  Weighted2() {}
  Weighted2(const Base &at) : Base(at) {}
  Weighted2(const Base &at, const lnc::weighted2 &own) : Base(at), own(own) {}
};
template <class Base> struct Weighted3 : Base {
  lnc::weighted3 own{-1, 0, 0, 0, 0};
  Weighted3() {}
  Weighted3(const Base &at) : Base(at) {}
  Weighted3(const Base &at, const lnc::weighted3 &own) : Base(at), own(own) {}
};
typedef Weighted2<Plain::Weighted_point_2> Power2;
typedef Weighted3<Plain::Point_3> Site3;
typedef Weighted3<Plain::Weighted_point_3> Power3;

inline Site3 site(const Plain::Point_3 &at, std::int64_t index) {
  return Site3(at, ranged(lnc::weighted3{index, whole(at.x()), whole(at.y()), whole(at.z()), 0}));
}
inline Power2 site(const Plain::Weighted_point_2 &at, std::int64_t index) {
  return Power2(at, ranged(lnc::weighted2{index, whole(at.x()), whole(at.y()), whole(at.weight())}));
}
inline Power3 site(const Plain::Weighted_point_3 &at, std::int64_t index) {
  return Power3(at, ranged(lnc::weighted3{index, whole(at.x()), whole(at.y()), whole(at.z()), whole(at.weight())}));
}
inline Site2 site(const Plain::Point_2 &at, std::int64_t index) { return Site2(at, index); }

// A functor of a predicate; its sign is that of CGAL, or in space minus that. CGAL's answers are -1, 0 and 1 too
#define ASK(NAME, ANSWER, SIGN)                                                             \
  struct NAME {                                                                             \
    typedef ANSWER result_type;                                                             \
    template <class... S> ANSWER operator()(const S &...s) const { return ANSWER(SIGN); }   \
  };
// A comparison. CGAL compares a point with itself too: it is equal to itself alone
#define COMPARE(NAME, CALL)                                                                                  \
  struct NAME {                                                                                              \
    typedef CGAL::Comparison_result result_type;                                                             \
    template <class P> result_type operator()(const P &p, const P &q) const {                                \
      return p.own.index == q.own.index ? CGAL::EQUAL : CGAL::Comparison_result(CALL(p.own, q.own));         \
    }                                                                                                        \
  };
#define OBJECT(NAME, CALL) \
  NAME CALL() const { return {}; }

struct Kernel2 : Plain {
  typedef Site2 Point_2;
  ASK(Orientation_2, CGAL::Orientation, lnc::orient2(s.own...))
  ASK(Side_of_oriented_circle_2, CGAL::Oriented_side, lnc::incircle(s.own...))
  COMPARE(Compare_x_2, lnc::compare_x2)
  COMPARE(Compare_y_2, lnc::compare_y2)
  struct Construct_point_2 { const Site2 &operator()(const Site2 &p) const { return p; } };
  OBJECT(Orientation_2, orientation_2_object)
  OBJECT(Side_of_oriented_circle_2, side_of_oriented_circle_2_object)
  OBJECT(Compare_x_2, compare_x_2_object)
  OBJECT(Compare_y_2, compare_y_2_object)
  OBJECT(Construct_point_2, construct_point_2_object)
};

struct Regular2 : Plain {
  typedef Weighted2<Plain::Point_2> Point_2;
  typedef Power2 Weighted_point_2;
  ASK(Orientation_2, CGAL::Orientation, lnc::worient2(s.own...))
  ASK(Power_side_of_oriented_power_circle_2, CGAL::Oriented_side, power(s.own...))
  COMPARE(Compare_x_2, lnc::wcompare_x2)
  COMPARE(Compare_y_2, lnc::wcompare_y2)
  struct Construct_point_2 {
    Point_2 operator()(const Power2 &p) const { return Point_2(p.point(), p.own); }
    const Point_2 &operator()(const Point_2 &p) const { return p; }
  };
  OBJECT(Orientation_2, orientation_2_object)
  OBJECT(Power_side_of_oriented_power_circle_2, power_side_of_oriented_power_circle_2_object)
  OBJECT(Compare_x_2, compare_x_2_object)
  OBJECT(Compare_y_2, compare_y_2_object)
  OBJECT(Construct_point_2, construct_point_2_object)
  static int power(const lnc::weighted2 &a, const lnc::weighted2 &b, const lnc::weighted2 &c, const lnc::weighted2 &d) { return lnc::power2(a, b, c, d); }
  // fewer points lie on a line or are one: no moved ones do
  template <class... S> static int power(const S &...) { throw std::logic_error("points on a line"); }
};

struct Kernel3 : Plain {
  typedef Site3 Point_3;
  ASK(Orientation_3, CGAL::Orientation, -lnc::worient3(s.own...))
  ASK(Side_of_oriented_sphere_3, CGAL::Oriented_side, -lnc::power3(s.own...))
  // the orientation of the projections to x and y, which are never on a line
  ASK(Coplanar_orientation_3, CGAL::Orientation, lnc::wcoplanar_xy(s.own...))
  // (the moved points never have one x, so y and z needn't be compared)
  COMPARE(Compare_xyz_3, lnc::wcompare_x3)
  struct Construct_point_3 { const Site3 &operator()(const Site3 &p) const { return p; } };
  struct Equal_3 { bool operator()(const Site3 &p, const Site3 &q) const { return p.own.index == q.own.index; } };
  OBJECT(Orientation_3, orientation_3_object)
  OBJECT(Side_of_oriented_sphere_3, side_of_oriented_sphere_3_object)
  OBJECT(Coplanar_orientation_3, coplanar_orientation_3_object)
  OBJECT(Compare_xyz_3, compare_xyz_3_object)
  OBJECT(Equal_3, equal_3_object)
  OBJECT(Construct_point_3, construct_point_3_object)
};

struct Regular3 : Kernel3 {
  typedef Power3 Weighted_point_3;
  ASK(Power_side_of_oriented_power_sphere_3, CGAL::Oriented_side, power(s.own...))
  struct Construct_point_3 {
    Site3 operator()(const Power3 &p) const { return Site3(p.point(), p.own); }
    const Site3 &operator()(const Site3 &p) const { return p; }
  };
  OBJECT(Power_side_of_oriented_power_sphere_3, power_side_of_oriented_power_sphere_3_object)
  OBJECT(Construct_point_3, construct_point_3_object)
  static int power(const lnc::weighted3 &a, const lnc::weighted3 &b, const lnc::weighted3 &c, const lnc::weighted3 &d, const lnc::weighted3 &e) {
    return -lnc::power3(a, b, c, d, e);
  }
  template <class... S> static int power(const S &...) { throw std::logic_error("points in a plane"); }
};
#endif
