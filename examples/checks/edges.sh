# shellcheck shell=bash disable=SC2154  # examples/check, which reads this file, gives the names that stand for nothing here
# edges of points: the hull of a cloud beside a plain monotone chain, 200 clouds in general position beside it, 200 degenerate ones beside the
# definition, each of them one cycle, and a points file of the largest size
hull="$lnc edges examples/hull/orient.ln orient"
g++ -O2 -Wall -Wextra -Werror examples/hull/hull.cpp -o "$scratch/hull"
case_ 'the pictures of hulls' 0 'same' '' "LNC=$lnc examples/hull/draw | cmp - docs/hull.svg && echo same"
case_ 'the hull of 120 points beside a chain' 0 'equal' '' "$hull examples/hull/points.csv >$scratch/once && $scratch/hull chain examples/hull/points.csv >$scratch/twice && cmp $scratch/once $scratch/twice && echo equal"
for kind in 'chain 1000' 'slow 5'; do
  case_ "200 clouds beside ${kind% *}" 0 '200' '' "for seed in \$(seq 200); do $scratch/hull cloud \$seed 25 ${kind#* } >$scratch/cloud; $hull $scratch/cloud >$scratch/once && $scratch/hull ${kind% *} $scratch/cloud >$scratch/twice && cmp $scratch/once $scratch/twice && echo equal; done | grep -c equal"
done
{ echo point,point.x,point.y; head -c 67108842 /dev/zero | tr '\0' ','; } >"$scratch/commas.csv"
case_ 'commas up to the limit within 200 MB' 3 '' 'error point 1' "ulimit -v 200000; $hull $scratch/commas.csv"
rm -f "$scratch/commas.csv" "$scratch/hull" "$scratch/cloud"
