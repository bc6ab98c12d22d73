# shellcheck shell=bash disable=SC2154  # examples/check, which reads this file, gives the names that stand for nothing here
# the order of infinitesimals by total degree first
{ head -1 "$rows"; echo 1,0,1,2,0,0,3,0,0; } >"$scratch/differ.csv"
case_ 'one row in both orders' 0 $'+ 4\n- 4' '' "$lnc run $orient orient $scratch/differ.csv; $lnc graded $orient orient $scratch/differ.csv"
case_ 'by total degree a predicate needs its name' 2 '' 'error usage' "$lnc graded $orient $rows"
case_ 'no such predicate by total degree' 4 '' 'error predicate' "$lnc graded $orient nosuch $rows"
case_ 'a wrong header by total degree' 3 '' 'error header' "$lnc graded $orient orient examples/squares/rows.csv"
# three random predicates twelve times, by a plain program of the definitions
case_ 'random predicates by total degree' 0 '36 equal' '' "n=0; for seed in \$(seq 12); do
    python3 examples/checks/plain.py product \$seed >$scratch/whole.ln; for name in f g h; do
    python3 examples/checks/plain.py rows $scratch/whole.ln \$name 60 >$scratch/made.csv
    $lnc graded $scratch/whole.ln \$name $scratch/made.csv | sed 's/F\$/0/' >$scratch/once; python3 examples/checks/plain.py graded $scratch/whole.ln \$name $scratch/made.csv >$scratch/twice
    cmp $scratch/once $scratch/twice && [ \$(wc -l <$scratch/once) = 60 ] && n=\$((n + 1)); done; done; echo \$n equal"
