// The same from C++.
#include <iostream>
#include <lnc_plane.h>

int main() {
  const lnc::point2 p{1, 0, 0}, q{2, 1, 1}, r{3, 2, 2}, far{4, LN_POINT2_X_MAX + 1, 0};
  std::cout << lnc::orient2(p, q, r) << ' ' << lnc::orient2_plain(p, q, r) << ' ' << lnc::in_range(far) << '\n';
}
