# shellcheck shell=bash disable=SC2154,SC2059  # examples/check, which reads this file, gives the names that stand for nothing here
# examples/large beside `run`, on rows of which some are invalid; and examples/large.py beside both
awk 'BEGIN { srand(4); print "p,p.x,p.y,q,q.x,q.y,r,r.x,r.y"
  for (i = 0; i < 40000; i++) {
    if (i % 9973 == 9972) { print "1,2,3"; continue }
    m = i % 2 ? 2 : 1000; line = ""
    for (k = 0; k < 3; k++) line = line (k ? "," : "") 3 * int(rand() * 1000000) + k "," int(rand() * (2 * m + 1)) - m "," int(rand() * (2 * m + 1)) - m
    print line } }' >"$scratch/rows.csv"
large="LNC=$lnc LARGE_PIECE=64K examples/large"
case_ 'rows in many pieces' 3 'equal' '' "$lnc run $orient orient $scratch/rows.csv >$scratch/once; $large $orient orient $scratch/rows.csv >$scratch/twice; s=\$?
  cmp $scratch/once $scratch/twice && [ \$(wc -l <$scratch/once) = 40000 ] && echo equal; exit \$s"
case_ 'from a pipe' 3 'equal' '' "set -o pipefail; cat $scratch/rows.csv | $large $orient orient /dev/stdin | { cmp - $scratch/once && echo equal; }"
head -1 "$scratch/rows.csv" >"$scratch/header.csv"
case_ 'a header alone' 0 '' '' "$large $orient orient $scratch/header.csv"
# what a record is: by files with quotes, empty lines and all ends of lines, in pieces of each size, the lines, the line on standard error and the status of run
as_run() { # NAME TEXT
  printf "$2" >"$scratch/quotes.csv"
  case_ "$1" 0 'equal' '' "for size in 1 7 30 59 100 1K; do
    $lnc run $orient orient $scratch/quotes.csv >$scratch/one 2>$scratch/one_said; s=\$?; LNC=$lnc LARGE_PIECE=\$size examples/large $orient orient $scratch/quotes.csv >$scratch/two 2>$scratch/two_said
    [ \$? = \$s ] && cmp $scratch/one $scratch/two && cmp $scratch/one_said $scratch/two_said || { echo pieces of \$size; exit 1; }
  done && echo equal"
}
head=$(cat "$scratch/header.csv")
as_run 'a field in quotes over the end of a line, and over two pieces' "$head\n\"1\",0,0,2,1,0,3,0,1\n\"1\n2\",0,0,2,1,0,3,0,1\n1,0,0,2,1,0,3,0,\"-1\"\n"
as_run 'a lone quote inside a field' "$head\n1,0,0,2,1,0,3,0,1\n1\"2,0,0,2,1,0,3,0,1\n1,0,0,2,1,0,3,0,-1\n"
as_run 'doubled quotes, and letters after them' "$head\n\"1\"\"\n,2\",0,0,2,1,0,3,0,1\n\"1\"2,0,0,3,1,0,4,0,1\n\"\",0,0,2,1,0,3,0,-1\n1,0,0,2,1,0,3,0,-1\n"
as_run 'a quote that nothing closes' "$head\n1,0,0,2,1,0,3,0,1\n\"1,0,0,2,1,0,3,0,1\n1,0,0,2,1,0,3,0,-1\n"
as_run 'an empty line before the header' "\n\r\n$head\n1,0,0,2,1,0,3,0,1\n"
as_run 'a byte order mark, quotes in the header, empty lines' "\357\273\277\"p\",${head#p,}\r\n\r\n\n1,0,0,2,1,0,3,0,1\r\n\n\n1,0,0,2,1,0,3,0,-1"
as_run 'a header over two lines' "\"p\n\",${head#p,}\n1,0,0,2,1,0,3,0,1\n"
as_run 'lines that end in CR alone' "$head\r1,0,0,2,1,0,3,0,1\r1,0,0,2,1,0,3,0,-1\r"
as_run 'a header that ends with the file' "$head"
as_run 'no byte' ''
as_run 'empty lines alone' "\n\n\r\n"
case_ 'a predicate that is not there' 4 '' 'error predicate' "$large $orient nosuch $scratch/rows.csv"
case_ 'a refused source' 1 '' 'error bound 2:62' "$large examples/limits/too_heavy.ln big $scratch/rows.csv"
case_ 'no rows file' 6 '' 'error read' "$large $orient orient $scratch/nosuch.csv"
case_ 'another header' 3 '' 'error header' "$large examples/squares/squares.ln s $scratch/rows.csv"
grep -v '^1,2,3$' "$scratch/rows.csv" >"$scratch/valid.csv"
case_ 'in Python over the batch call' 0 'equal' '' "printf '#define LNC_PLANE_IMPLEMENTATION\n#include \"lnc_plane.h\"\n' >$scratch/lnc_plane.c && gcc -std=gnu99 -O1 -fPIC -shared -Ipredicates $scratch/lnc_plane.c -o $scratch/libplane.so &&
  python3 examples/large.py $scratch/libplane.so predicates/lnc_plane.h orient2 $scratch/valid.csv >$scratch/twice && grep -v '^!' $scratch/once | cut -c1 | cmp - $scratch/twice && echo equal"
# with numpy and without, a row of another length ends it: also where the numbers of two rows are those of two of the right length
{ head -1 "$scratch/valid.csv"; echo 1,0,0,2,1,0,3,0; echo 1,0,0,2,1,0,3,0,1,5; } >"$scratch/lengths.csv"
for python in "python3" "/usr/bin/python3"; do
  kind=$($python -c 'import numpy; print("numpy")' 2>/dev/null) || kind='no numpy'
  case_ "in Python, $kind: rows of other lengths" 1 'ValueError: a row of another length between the bytes 30 and 66' '' "$python examples/large.py $scratch/libplane.so predicates/lnc_plane.h orient2 $scratch/lengths.csv 2>&1 | tail -1"
done
[ "$kind" = numpy ] || echo "large.sh: numpy isn't installed: rows are tried without it alone"
rm -f "$scratch/rows.csv" "$scratch/valid.csv"
