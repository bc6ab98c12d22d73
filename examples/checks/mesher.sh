# shellcheck shell=bash disable=SC2154  # examples/check, which reads this file, gives the names that stand for nothing here
# what a mesh generator meets first: headers of sources of its own, calls that check, and the largest ranges with weights
case_ 'header.py refuses what it can'\''t write' 0 '39 sources, 0 not refused as they should be' '' "mkdir $scratch/headers && python3 examples/checks/mesher.py refused $lnc $scratch/headers"
case_ 'and takes what it can' 0 '4 sources, 0 wrong' '' "python3 examples/checks/mesher.py kept $lnc $scratch/headers"
case_ 'all are narrowed' 0 $'site p_8 { x:-256 .. 256;\n  w: 0 .. 65536; }\nparam c_8: 0 .. 9;\npredicate f_8(f_8: p_8, c_8: param) { sign f_8.x*c_8 - f_8.w; } // f of p' '' \
  "printf 'site p { x:-\\n5\\n..  5;\\n  w: 0 .. 1; }\\nparam c: 0 .. 9;\\npredicate f(f: p, c: param) { sign f.x*c - f.w; } // f of p\\n' >$scratch/wide.ln
  LNC=$lnc python3 predicates/header.py --grid 8 $scratch/wide.ln | tail -n +2"

# calls that check
said=$'1 1\norient2: r has the index of q too\n0\norient2: q.y is out of range\n0\ncompare_x2: q has a negative index\n0\nwcompare_w2: q.w is out of range\n0
1\norient2: r has the index of p too\n0\norient2: r has the index of p too, row 1\n1 0 -1'
for family in plane weighted_plane; do
  gcc -std=gnu99 -O0 -fPIC -DLNC_"${family^^}"_IMPLEMENTATION -x c -c predicates/lnc_$family.h -o "$scratch/$family.o"
done
checked() { # NAME COMPILER.. WANTED OBJECT
  case_ "$1" 0 "$3" '' "$2 -Wall -Wextra -Werror -Wshadow -Ipredicates examples/checks/checked.c -x none $4 $scratch/weighted_plane.o -o $scratch/checked && $scratch/checked"
}
checked 'calls that check, from C' 'gcc -std=gnu99 -O1 -x c' "$said" "$scratch/plane.o"
checked 'from C++' 'g++ -std=c++11 -Wold-style-cast -x c++' "$said"$'\n1\norient2: r.y is out of range\n0' "$scratch/plane.o"
checked 'with the implementation in the same file, from clang' 'clang -std=gnu99 -DLNC_PLANE_IMPLEMENTATION -x c' "$said" ''
case_ 'and without a handler they end the program' 0 $'134\nlnc: orient2: r has the index of q too' '' "ulimit -c 0; { $scratch/checked abort 2>$scratch/said | cat >&2; echo \${PIPESTATUS[0]}; } 2>$scratch/rest; cat $scratch/said"
case_ 'C++ of the implementation has no warning' 0 '' '' "printf '#define LNC_PLANE_IMPLEMENTATION\n#include \"lnc_plane.h\"\n' >$scratch/it.cpp
  for compiler in g++ clang++; do \$compiler -Wall -Wextra -Wold-style-cast -Werror -O0 -Ipredicates -c $scratch/it.cpp -o $scratch/it.o || exit 1; done"
gcc -shared -o "$scratch/libplane.so" "$scratch/plane.o"
case_ 'calls from Python' 0 '0 wrong' '' "python3 examples/checks/mesher.py calls $scratch/libplane.so | sed 's/.*, //'"
if python=$(for it in python3 /usr/bin/python3; do "$it" -c 'import numpy' 2>/dev/null && echo "$it" && break; done); then
  case_ 'arrays of numpy' 0 'with numpy, 0 wrong' '' "$python examples/checks/mesher.py calls $scratch/libplane.so"
else
  skip 1 'arrays of numpy' "numpy isn't installed"
fi

# from doubles to the grid and back, beside rational numbers
gcc -std=gnu99 -Wall -Wextra -Werror -O1 -Ipredicates examples/checks/grid.c -o "$scratch/grid_c"
clang++ -Wall -Wextra -Werror -O1 -Ipredicates -x c++ examples/checks/grid.c -o "$scratch/grid_cpp"
rustc --edition 2021 -O examples/checks/grid.rs -o "$scratch/grid_rs"
case_ 'grids in C, C++, Rust and Python' 0 'all right' '' "python3 examples/checks/grid.py compare 1 60 $scratch/grid_c $scratch/grid_cpp $scratch/grid_rs python | sed 's/.*lines, //; s/;.*//'"

# triangulations of doubles, a program in each language over a library of plane alone
small=$scratch/small; mkdir -p "$small/include" "$small/lib" "$small/share/lnc_predicates"
cp predicates/lnc_plane.h predicates/lnc_grid.h "$small/include"; cp predicates/lnc_predicates.py "$small/share/lnc_predicates"
cp "$scratch/libplane.so" "$small/lib/liblnc_predicates.so.1"; ln -s liblnc_predicates.so.1 "$small/lib/liblnc_predicates.so"
cp -R predicates/users "$scratch/programs"; sed -i "s|LNC_PREDICATES\"|$PWD/predicates/rust\"|" "$scratch/programs/Cargo.toml"
with="-I$small/include -L$small/lib -Wl,-rpath,$small/lib -llnc_predicates"
# shellcheck disable=SC2086  # $with is words
(cd "$scratch/programs" && gcc -std=gnu99 -Wall -Wextra -Werror -O1 triangles.c $with -o triangles_c && g++ -std=c++17 -Wall -Wextra -Wold-style-cast -Werror -O1 triangles.cpp $with -o triangles_cpp &&
  cargo build -q --offline)
python3 -c "import random
for i in range(12):
    for j in range(12): print(i * 0.25, j * 0.5 - 1)
for k in range(400): print(random.Random(k).randrange(2**20) / 2**16, random.Random(-k - 1).randrange(2**20) / 2**16)
print(0.25, -1, 0, -0.0, 0.5, 0.5, 1e3, 0)" | tr ' ' '\n' | paste -d' ' - - >"$scratch/doubles"
# the smallest corner of each triangle first
turned="awk '{ a = \$1 + 0; b = \$2 + 0; c = \$3 + 0; while (a > b || a > c) { t = a; a = b; b = c; c = t } print a, b, c }' | sort"
for each_way in ./triangles_c ./triangles_cpp "env PYTHONPATH=$small/share/lnc_predicates python3 -B triangles.py" target/debug/triangles; do
  case_ "triangles by ${each_way##*[/ ]}" 0 'a Delaunay triangulation, and the same' '' "cd $scratch/programs && $each_way <$scratch/doubles >found && <found $turned >sorted &&
    { [ -e first ] || cp sorted first; } && cmp sorted first && { cat $scratch/doubles; echo; cat found; } | python3 $PWD/examples/checks/triangles.py | sed 's/.*triangles, //; s/\$/, and the same/'"
done
case_ 'each has at most 60 lines' 0 'yes' '' "for file in predicates/users/triangles.*; do [ \$(wc -l <\$file) -le 60 ] || echo \$file; done; echo yes"
case_ 'two points have none, and NaN is refused' 1 '' 'point 1 isn'\''t finite' "cd $scratch/programs && echo 1 2 3 4 | ./triangles_c; echo 1 2 nan 1 5 5 | ./triangles_c"

# sources of their own beside the families, over the moved points of plane and of space
for family in bisectors:29 planes:40; do
  bits=${family#*:} family=${family%:*} own=$scratch/own_${family%:*}
  mkdir -p "$own/include" "$own/lib" "$own/share/lnc_predicates"; cp predicates/lnc_predicates.py "$own/share/lnc_predicates"; case $family in bisectors) count=6 ;; *) count=3 ;; esac
  case_ "$family, beside the families" 0 "2000 rows, 0 wrong"$'\n'"$count signs, 0 wrong" '' "make -s -C predicates $family O=$own/include LNC=$lnc LNC_EXACT=$(readlink -f "${LNC_EXACT:-$(bin/lnc_exact --path)}") &&
    gcc -std=gnu99 -Wall -Wextra -Werror -O0 -fPIC -shared -DLNC_$(tr a-z A-Z <<<"$family")_IMPLEMENTATION -x c $own/include/lnc_$family.h -o $own/lib/liblnc_predicates.so.1 &&
    python3 examples/checks/predicates.py signs $lnc $own $family 2000 && python3 examples/checks/predicates.py meanings $own $family | sed 's/, not in.*//'"
  case_ "no larger power of 2 for $family" 1 '' 'error bound' "LNC=$lnc python3 predicates/header.py --grid $((bits + 1)) predicates/$family.ln | $lnc check /dev/stdin 2>&1 | cut -d' ' -f1,2 >&2; exit 1"
done

# bin/largest with weights, which are scaled by the square
weighted='site p { x: -1 .. 1; w: 0 .. 1; } predicate f(p: p, q: p) { sign (p.x - q.x)^2 - p.w + q.w; }'
for words in ' 62' 'w=2 31' 'w=3 20' 'w=0 62' 'w=0_x=3 20'; do
  case_ "largest ${words% *}" 0 "f 2^${words##* }" '' "printf '%s\n' '$weighted' >$scratch/weighted.ln; words='${words% *}'; LNC=$lnc bin/largest $scratch/weighted.ln \${words//_/ }"
done
case_ 'largest of a name that is not there' 1 '' 'largest: no coordinate and no param has the name h' "LNC=$lnc bin/largest $scratch/weighted.ln h=2"
case_ 'a regular triangulation reaches the ranges of an in-circle test' 0 'power2 2^29' '' "printf 'site p { x: -1 .. 1; y: -1 .. 1; w: 0 .. 1; }\n' >$scratch/weighted.ln
  sed -n '/^predicate power2/,/^}/{ s/weighted2/p/g; p; }' predicates/weighted_plane.ln >>$scratch/weighted.ln; LNC=$lnc bin/largest $scratch/weighted.ln w=2"

# a triangulation with segments, on grids, lines and circles
mkdir "$scratch/constrained"
gcc -std=gnu99 -Wall -Wextra -Werror -O1 -DLNC_CHECKED -Ipredicates examples/segments/segments.c -o "$scratch/constrained/segments"
case_ 'segments are chains of edges of a constrained Delaunay triangulation' 0 '1661 segments, 0 scenes wrong' '' "python3 examples/checks/constrained.py $scratch/constrained"
case_ 'segments that cross where no point is are refused' 1 'segment 0 2' 'segment 1 is crossed' "echo 4 2 0 0 1 0 1 1 0 1 0 2 1 3 | $scratch/constrained/segments"
