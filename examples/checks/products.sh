# shellcheck shell=bash disable=SC2154
# The sign of a product of predicates.
sides='examples/sides/sides.ln'; ends=examples/sides/rows.csv; three='r_side s_side r_side'
printf 'site num { t: -5 .. 5; }\npredicate s(a: num, b: num) { sign a.t + b.t; }\npredicate n(b: num, a: num) { sign a.t + b.t; }\n' >"$scratch/unlike.ln"
case_ 'a square' 0 $'+ F,F\n+ F,F\n+ 1,1\n+ 1,1' '' "$lnc product $sides r_side r_side $ends"
case_ 'eight factors' 0 '4' '' "$lnc product $sides $three $three r_side s_side $ends | grep -c ','"
case_ 'nine factors' 2 '' 'error usage' "$lnc product $sides $three $three $three $ends"
case_ 'one factor' 2 '' 'error usage' "$lnc product $sides r_side $ends"
case_ 'predicates with other arguments, and no rows file' 10 '' 'error shape' "$lnc product $scratch/unlike.ln s n $scratch/nosuch.csv"
case_ 'a factor that is not there' 4 '' 'error predicate' "$lnc product $scratch/unlike.ln s n nosuch $ends"
case_ 'products on a closed port' 7 '' '' "$lnc product $sides r_side s_side $ends >&-"
# twenty times three random predicates, on rows of which most are degenerate: the sign of the product that is multiplied out, by the definitions
case_ 'random products' 0 '20 equal' '' "n=0; for seed in \$(seq 20); do
    python3 examples/checks/plain.py product \$seed >$scratch/whole.ln; grep -v '^predicate whole' $scratch/whole.ln >$scratch/three.ln
    python3 examples/checks/plain.py rows $scratch/whole.ln whole 60 >$scratch/made.csv
    $lnc product $scratch/three.ln f g h $scratch/made.csv | cut -c1 >$scratch/once; python3 examples/checks/plain.py run $scratch/whole.ln whole $scratch/made.csv | cut -c1 >$scratch/twice
    cmp $scratch/once $scratch/twice && [ \$(wc -l <$scratch/once) = 60 ] && n=\$((n + 1)); done; echo \$n equal"
