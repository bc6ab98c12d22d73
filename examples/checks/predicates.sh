# shellcheck shell=bash disable=SC2154  # examples/check, which reads this file, gives the names that stand for nothing here
# predicates/: what is kept is what the programs write, the installed library from a folder elsewhere, its signs, and triangulations over it. The C
# is made by lnc_exact: the program in LNC_EXACT, or that of the checkout
exact=$(readlink -f "${LNC_EXACT:-$(bin/lnc_exact --path)}")
families='plane space weighted_plane weighted_space segments'
for family in $families; do
  text=predicates/$family.ln
  case_ "the kept C of $family" 0 'equal' '' "$exact turning $text | cmp - predicates/$family.c && echo equal"
  case_ "the header of $family" 0 'equal' '' "LNC=$lnc python3 predicates/header.py $text predicates/$family.c | cmp - predicates/lnc_$family.h && echo equal"
  case_ "no larger power of 2 for $family" 1 '' 'error bound' \
    "bits=30; case $family in *space) bits=24 ;; esac; LNC=$lnc python3 predicates/header.py --grid \$bits $text >$scratch/next.ln; $lnc check $scratch/next.ln 2>$scratch/said; s=\$?
    cut -d' ' -f1,2 $scratch/said >&2; exit \$s"
done
for family in plane weighted_plane segments; do
  case_ "the listing of $family" 0 'equal' '' "$lnc list predicates/$family.ln | cmp - predicates/$family.list && echo equal"
done
case_ 'at most 2.5 MB are kept' 0 'yes' '' "[ \$(cat predicates/*.{c,h,list} | wc -c) -le 2500000 ] && echo yes"
case_ 'a second set for grids of 2^20, beside the first' 0 '1 1' '' "make -s -C predicates grid20 FAMILIES=plane O=$scratch/grid LNC=$lnc LNC_EXACT=$exact &&
    printf '#define LNC_PLANE_IMPLEMENTATION\n#include \"lnc_plane.h\"\n#define LNC_PLANE_20_IMPLEMENTATION\n#include \"lnc_plane_20.h\"\n#include <stdio.h>\n
    int main(void) { int64_t x[] = {1, 2, 3}, v[] = {0, 0, 1, 1, 2, 2}; printf(\"%%d %%d\\\\n\", ln_orient2(x, v), ln_orient2_20(x, v)); }\n' >$scratch/both.c &&
    gcc -std=gnu99 -Wall -Wextra -Werror -Ipredicates -I$scratch/grid $scratch/both.c -o $scratch/both && $scratch/both"
shown predicates/README.md

# C of one order: its header puts each row into this order, and nothing else can call it
mkdir "$scratch/one"; cp examples/checks/exchanges.{ln,c} "$scratch/one"
case_ 'the kept C of one order' 0 'equal' '' "$exact turning examples/checks/exchanges.ln | cmp - examples/checks/exchanges.c && echo equal"
case_ 'a header for it' 0 '' '' "LNC=$lnc python3 predicates/header.py $scratch/one/exchanges.{ln,c} >$scratch/one/lnc_exchanges.h"
case_ 'rows in every order of their indices' 0 '7200 rows, 0 wrong' '' "python3 examples/checks/predicates.py orders $lnc $scratch/one exchanges"
# shellcheck disable=SC2086  # $families is words
case_ 'and so of the families' 0 '77760 rows, 0 wrong' '' "python3 examples/checks/predicates.py orders $lnc predicates $families"
case_ 'it has no function of its own to link' 0 'ln_alone ln_behind ln_large ln_left ln_near' '' "cd $scratch/one && gcc -std=gnu99 -DLNC_EXCHANGES_IMPLEMENTATION -x c -c lnc_exchanges.h -o one.o &&
  nm -g --defined-only one.o | cut -d' ' -f3 | grep -v '_\(at\|plain\|rows\)\$' | sort | paste -sd' '"
case_ 'a header that was written before the C takes none of one order' 0 'la_left' '' "cd $scratch/one && mv exchanges.c of_one && LNC=$lnc python3 $PWD/predicates/header.py exchanges.ln >lnc_exchanges.h && mv of_one exchanges.c &&
  { gcc -std=gnu99 -DLNC_EXCHANGES_IMPLEMENTATION -x c -c lnc_exchanges.h -o one.o 2>said || grep -o 'la_left. redeclared' said | grep -o '^la_left'; }"

# two files, copied
mkdir "$scratch/copied"; cp predicates/plane.c predicates/lnc_plane.h "$scratch/copied"
sed '1a #define LNC_PLANE_IMPLEMENTATION
s/<lnc_plane.h>/"lnc_plane.h"/' predicates/users/line.c >"$scratch/copied/line.c"
sed '1a #define LNC_PLANE_IMPLEMENTATION' predicates/users/line.cpp >"$scratch/copied/line.cpp"
for compile in 'gcc -std=gnu99' 'clang -std=gnu99' 'g++ -std=c++11' 'clang++ -std=c++17'; do
  inputs=line.c; case $compile in *++*) inputs='-I. line.cpp' ;; esac
  case_ "two copied files by $compile" 0 '1 0 0' '' "cd $scratch/copied && $compile -Wall -Wextra -Werror -O1 $inputs -o line && ./line"
done

# the library, installed and used from a folder elsewhere
prefix=$scratch/installed
case_ 'make install' 0 '' '' "make -s -C predicates install CC=gcc CFLAGS='-O2 -Wall -Wextra -Werror' O=$scratch/build PREFIX=$prefix"
case_ 'nothing in it is right on some rows alone' 0 '' '' "nm -gD --defined-only $prefix/lib/liblnc_predicates.so | cut -d' ' -f3 | grep -v '^ln_'; nm -g --defined-only $prefix/lib/liblnc_predicates.a | sed -n 's/.* T //p' | grep -v '^ln_' || true"
cp -R predicates/users "$scratch/users"
sed -i "s|LNC_PREDICATES\"|$PWD/predicates/rust\"|" "$scratch/users/Cargo.toml"
flags="-I$prefix/include -L$prefix/lib -Wl,-rpath,$prefix/lib -llnc_predicates"
case_ 'from C, over the shared library' 0 '1 0 0' '' "cd $scratch/users && gcc -std=gnu99 -Wall -Wextra -Werror line.c $flags -o line_c && ./line_c"
case_ 'from C++, over the static one' 0 '1 0 0' '' "cd $scratch/users && g++ -std=c++17 -Wall -Wextra -Werror line.cpp -I$prefix/include $prefix/lib/liblnc_predicates.a -o line_cpp && ./line_cpp"
case_ 'from Python' 0 '1 0 0' '' "cd $scratch/users && PYTHONPATH=$prefix/share/lnc_predicates python3 -B line.py"
case_ 'from Rust, over the crate' 0 '1 0 0' '' "cd $scratch/users && cargo run -q --offline"
case_ 'by CMake, over what make installed' 0 $'1 0 0\n1 0 0' '' "cd $scratch/users && { cmake -S . -B made -DCMAKE_PREFIX_PATH=$prefix && cmake --build made; } >said && made/line_c && made/line_cpp"
case_ 'and over what CMake installed' 0 $'1 0 0\n1 0 0' '' "cd $scratch/users && { cmake -S $PWD/predicates -B plane -DLNC_FAMILIES=plane -DCMAKE_INSTALL_PREFIX=$scratch/cmade && cmake --build plane &&
  cmake --install plane && cmake -S . -B second -DCMAKE_PREFIX_PATH=$scratch/cmade && cmake --build second; } >said && second/line_c && second/line_cpp"
case_ 'pkg-config finds it' 0 "-I$prefix/include -L$prefix/lib -llnc_predicates" '' "PKG_CONFIG_PATH=$prefix/lib/pkgconfig pkg-config --cflags --libs lnc_predicates | sed 's/ *\$//'"

# signs
for family in $families; do
  case_ "20,000 rows of $family" 0 '20000 rows, 0 wrong' '' "python3 examples/checks/predicates.py signs $lnc $prefix $family 20000"
done
case_ 'the same calls in C that is proved whole' 0 $'equal\n2000 rows, 0 wrong' '' "make -s -C predicates proved FAMILIES=plane O=$scratch/whole LNC=$lnc LNC_EXACT=$exact &&
  $exact predicates/plane.ln | cmp - $scratch/whole/proved/plane.c && echo equal && make -s -C predicates install FAMILIES=plane FROM=$scratch/whole/proved PREFIX=$scratch/proved &&
  python3 examples/checks/predicates.py signs $lnc $scratch/proved plane 2000"
case_ 'what + means' 0 '55 signs, 0 wrong, not in the table: compare_x3 compare_y3 wcompare_w3 wcompare_x2 wcompare_x3 wcompare_y2 wcompare_y3 wcompare_z3 wdiametral2 wdiametral3 wlexicographic2 wlexicographic3' '' "python3 examples/checks/predicates.py meanings $prefix"
case_ 'the Rust crate has the sources'\'' predicates' 0 '5' '' "python3 examples/checks/predicates.py rust | grep -c ': the same'"

# what the pages say of C: block 0 of emitted C, the sign of a product, and the functions of SEGMENTS.md
printf '#include "%s/examples/orientation/orient.c"\n#include <stdio.h>\nint main(void) { int64_t x[] = {1, 2, 3}, v[] = {0, 0, 1, 1, 2, 2}; printf("%%d %%d\\n", lb0_orient(v), ln_orient(x, v)); }\n' \
  "$PWD" >"$scratch/plain.c"
case_ 'including emitted C gives block 0' 0 '0 1' '' "gcc -std=gnu99 -Wall -Wextra -Werror $scratch/plain.c -o $scratch/plain && $scratch/plain"
case_ 'a product is the product of signs' 0 'equal' '' "$lnc emit examples/sides/sides.ln >$scratch/sides.c && for name in r_side s_side; do
  gcc -std=gnu99 -DCALL=ln_\$name examples/signs.c $scratch/sides.c -o $scratch/sign && $scratch/sign <examples/sides/rows.csv | sed 's/\$/1/' >$scratch/\$name; done
  paste -d'*' $scratch/r_side $scratch/s_side | while read -r both; do [ \$((both)) -gt 0 ] && echo + || echo -; done >$scratch/once
  $lnc product examples/sides/sides.ln r_side s_side examples/sides/rows.csv | cut -c1 | cmp - $scratch/once && [ -s $scratch/once ] && echo equal"
{ printf '#define LNC_SEGMENTS_IMPLEMENTATION\n#include "lnc_segments.h"\n#include <stdio.h>\n'; sed -n '/^    int /,/^    }/p' predicates/SEGMENTS.md
  printf '%s\n' 'int main(void) { const ln_segment2 s = {1, 0, 0, 9, 0}, t = {2, 3, -1, 3, 1}, u = {3, 7, 1, 7, -1}, w = {4, 20, -1, 20, 1}, at_t = {5, 2, -1, 4, 1};
    printf("%d %d, %d %d, %d\n", crosses(&s, &t), crosses(&s, &w), is_after(&s, &t, &u), is_after(&s, &u, &t), is_after(&s, &t, &at_t) * is_after(&s, &at_t, &t)); }'
} >"$scratch/segments.c"
case_ 'crossings along a segment' 0 '1 0, -1 1, -1' '' "gcc -std=gnu99 -Wall -Wextra -Werror -Ipredicates $scratch/segments.c -o $scratch/segments && $scratch/segments"

# triangulations: with the lift no cell inside is flat, of points on a grid, on a sphere and of both among others
for kind in '' '-DUNLIFTED'; do
  case_ "delaunay3 $kind" 0 '' '' "gcc -std=gnu99 -Wall -Wextra -Werror -O2 $kind -Ipredicates examples/tetrahedra/delaunay3.c $prefix/lib/liblnc_predicates.a -o $scratch/delaunay3$kind"
done
ends="questions: Euler's formula holds, every sphere is empty, and the volumes add up to the hull's"
for scene in '343 grid 7 0' '343 grid 7 180 -DUNLIFTED' '534 mixed 6 0' '1331 weighted 11 0'; do
  read -r count name size flat kind <<<"$scene"
  case_ "$name of $count points $kind" 0 "$count points, $flat inside after peeling, $ends" '' \
    "$scratch/delaunay3$kind $name $size cells 2>&1 >$scratch/cells_$name$kind | sed -E 's/ points, .* flat, / points, /; s/, [0-9]+ questions/, questions/'"
done
if echo '#include <CGAL/version.h>' | g++ -E -x c++ - >/dev/null 2>&1; then
  case_ "the cells of CGAL's regular triangulation" 0 'the same as CGAL'\''s' '' "make -s -C examples/cgal $scratch/regular OUT=$scratch/ && $scratch/regular <$scratch/cells_weighted | sed 's/.*, //'"
else
  skip 1 "the cells of CGAL's regular triangulation" "CGAL isn't installed"
fi
