# shellcheck shell=bash disable=SC2154  # examples/check, which reads this file, gives the names that stand for nothing here
# examples/dask on a local cluster: 1,000,000 rows, of which some are invalid, on one worker and on two beside `run`; a worker that is ended; other faults
python=''
for one in python3 /usr/bin/python3; do if $one -c 'import dask.distributed' 2>/dev/null; then python=$one; break; fi; done
if [ -z "$python" ]; then
  case_ "dask.sh: Dask isn't installed, which it says" 0 "skipped: Dask isn't installed" '' "python3 examples/dask/signs.py $orient orient $rows"
  skip 6 'examples/dask' "Dask isn't installed"
  return 0
fi
awk 'BEGIN { srand(4); print "p,p.x,p.y,q,q.x,q.y,r,r.x,r.y"
  for (i = 0; i < 1000000; i++) {
    if (i % 99991 == 99990) { print "1,2,3"; continue }
    m = i % 2 ? 2 : 1000; line = ""
    for (k = 0; k < 3; k++) line = line (k ? "," : "") 3 * int(rand() * 1000000) + k "," int(rand() * (2 * m + 1)) - m "," int(rand() * (2 * m + 1)) - m
    print line } }' >"$scratch/rows.csv"
"$lnc" run "$orient" orient "$scratch/rows.csv" >"$scratch/once"
dask="LNC=$(readlink -f "$lnc") $python examples/dask/signs.py"
for workers in 1 2; do
  case_ "a million rows on $workers of its workers" 3 '1000000 equal' '' "$dask $orient orient $scratch/rows.csv --workers $workers >$scratch/twice 2>$scratch/said; s=\$?
    cmp $scratch/once $scratch/twice && grep -q \"^signs: .* partitions on $workers worker\" $scratch/said && echo \$(wc -l <$scratch/twice) equal; exit \$s"
  grep '^signs: ' "$scratch/said" | sed 's/^/dask.sh: a million rows: /'
done
head -400000 "$scratch/rows.csv" >"$scratch/some.csv"; head -399999 "$scratch/once" >"$scratch/some"
parts=$(($(wc -c <"$scratch/some.csv") / 262144))
case_ 'workers that are ended in the middle' 0 "some partitions, 2 workers ended, equal" '' "PYTHONPATH=examples/dask $python -B examples/checks/cluster.py $(readlink -f "$lnc") $orient orient $scratch/some.csv $scratch/some 2>$scratch/said |
  awk '\$1 > 20 && \$1 <= $parts + 1 { \$1 = \"some\" } { print }'"
case_ 'a refused source' 1 '' 'error bound 2:62' "$dask examples/limits/too_heavy.ln big $scratch/rows.csv 2>$scratch/said; s=\$?; grep -h ^error $scratch/said >&2; exit \$s"
case_ 'another header' 3 '' 'error header' "$dask examples/squares/squares.ln s $scratch/rows.csv 2>$scratch/said; s=\$?; grep -h ^error $scratch/said >&2; exit \$s"
grep -v '^1,2,3$' "$scratch/some.csv" >"$scratch/valid.csv"
case_ 'by the batch call' 0 'equal' '' "printf '#define LNC_PLANE_IMPLEMENTATION\n#include \"lnc_plane.h\"\n' >$scratch/lnc_plane.c && gcc -std=gnu99 -O1 -fPIC -shared -Ipredicates $scratch/lnc_plane.c -o $scratch/libplane.so &&
  $dask $scratch/libplane.so,predicates/lnc_plane.h orient2 $scratch/valid.csv >$scratch/twice 2>$scratch/said; grep -v '^!' $scratch/some | cut -c1 | cmp - $scratch/twice && echo equal"
case_ 'where Dask is not there it says so' 0 "skipped: Dask isn't installed" '' "printf 'raise ImportError\n' >$scratch/dask.py; PYTHONPATH=$scratch $dask $orient orient $rows"
rm -f "$scratch/rows.csv" "$scratch/some.csv" "$scratch/valid.csv" "$scratch/dask.py"
