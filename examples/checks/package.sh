# shellcheck shell=bash disable=SC2154,SC2016  # examples/check, which reads this file, gives the names that stand for nothing here
# predicates/ as a package: its version, its SONAME, a prefix with blanks, and what is left when it is uninstalled; by make and by CMake, with one family
into=$scratch/package; mkdir "$into"
version=$(sed -n 's/^## //p' CHANGELOG.md | head -1)
judge 'one version' "$version $version $version" "$(sed -n 's/^VERSION = //p' predicates/Makefile) $(sed -n 's/^project(.* VERSION \([^ ]*\) .*/\1/p' predicates/CMakeLists.txt) $(
  sed -n 's/^version = "\(.*\)"/\1/p' predicates/rust/Cargo.toml)"
case_ 'make installs into a folder with blanks' 0 '' '' "make -s -C predicates install FAMILIES=plane CFLAGS=-O0 O=$into/build PREFIX='$into/by make'"
case_ 'CMake too' 0 '' '' "cd $into && { cmake -S $PWD/predicates -B cmake -DLNC_FAMILIES=plane -DCMAKE_BUILD_TYPE=Debug -DCMAKE_INSTALL_PREFIX='$into/by cmake' && cmake --build cmake && cmake --install cmake; } >said"
judge 'the same files' "$(cd "$into/by make" && find . -type f | sort)" "$(cd "$into/by cmake" && find . -type f | sort)"
for by in make cmake; do
  prefix="$into/by $by"
  case_ "the SONAME has the version, by $by" 0 "liblnc_predicates.so.${version%%.*}" '' "readelf -d '$prefix/lib/liblnc_predicates.so' | sed -n 's/.*SONAME.*\\[\\(.*\\)\\]/\\1/p'"
  for asked in 1.0 1 1.0.0 ''; do
    cp -R predicates/users "$into/users"; sed -i "s/find_package(lnc_predicates/& $asked/" "$into/users/CMakeLists.txt"
    case_ "find_package(lnc_predicates $asked), by $by" 0 $'1 0 0\n1 0 0' '' "cd $into/users && { cmake -S . -B made -DCMAKE_PREFIX_PATH='$prefix' && cmake --build made; } >said 2>&1 && made/line_c && made/line_cpp"
    rm -rf "$into/users"
  done
  for asked in 1.9 2.0 0.9; do
    cp -R predicates/users "$into/users"; sed -i "s/find_package(lnc_predicates/& $asked/" "$into/users/CMakeLists.txt"
    case_ "find_package(lnc_predicates $asked) finds none, by $by" 1 '' '' "cd $into/users && cmake -S . -B made -DCMAKE_PREFIX_PATH='$prefix' >said 2>&1; s=\$?; grep -q 'requested version \"$asked\"' said || echo another fault; exit \$s"
    rm -rf "$into/users"
  done
  case_ "from Python, by $by" 0 '1 0 0' '' "cd predicates/users && PYTHONPATH='$prefix/share/lnc_predicates' python3 -B line.py"
  case_ "by pkg-config, by $by" 0 '1 0 0' '' "cd predicates/users && eval gcc -std=gnu99 line.c \$(PKG_CONFIG_PATH='$prefix/lib/pkgconfig' pkg-config --cflags --libs lnc_predicates) -o $into/line && LD_LIBRARY_PATH='$prefix/lib' $into/line"
done
case_ 'make uninstalls' 0 '' '' "make -s -C predicates uninstall FAMILIES=plane PREFIX='$into/by make' && find '$into/by make' ! -type d"
case_ 'CMake too' 0 '' '' "cmake --build $into/cmake --target uninstall >/dev/null && find '$into/by cmake' ! -type d"
case_ 'make says where it makes no shared library' 2 '' 'this Makefile makes shared libraries for Linux: on macOS take CMakeLists.txt' \
  "make -s -C predicates FAMILIES=plane O=$into/build SYSTEM=Darwin -W $into/build/plane.o $into/build/liblnc_predicates.so 2>$into/said; s=\$?; head -1 $into/said >&2; exit \$s"
rm -rf "$into"
