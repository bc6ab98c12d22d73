# shellcheck shell=bash disable=SC2154  # examples/check, which reads this file, gives the names that stand for nothing here
# rows that are made
circle="$lnc gen examples/incircle/incircle.ln incircle"
case_ 'the same rows twice' 0 'same' '' "$circle 1 100000 >$scratch/once; $circle 1 100000 >$scratch/twice; cmp $scratch/once $scratch/twice && [ -s $scratch/once ] && echo same"
case_ 'other rows of another seed' 0 'other' '' "$circle 2 100000 >$scratch/other; cmp -s $scratch/once $scratch/other || echo other"
case_ 'a million rows within the memory of a thousand' 0 '1000000' '' "ulimit -v 65536; $circle 1 1000000 | awk '/^signs/ { print \$3 + \$5 + \$7 }'; rm -f $scratch/once $scratch/twice $scratch/other"
case_ 'leading zeros' 0 'same' '' "$circle 1 5 >$scratch/once; $circle 000000000000000001 0005 >$scratch/twice; cmp $scratch/once $scratch/twice && [ -s $scratch/once ] && echo same"
case_ 'a count past a million' 2 '' 'error usage' "$circle 1 1000001"
case_ 'a seed of nineteen digits' 2 '' 'error usage' "$circle 1000000000000000000 5"
case_ 'a count that is no number' 2 '' 'error usage' "$circle 1 many"
case_ 'no such predicate to make rows for' 4 '' 'error predicate' "$lnc gen $orient nosuch 1 5"
case_ 'rows that are made on a closed port' 7 '' '' "$circle 1 5 >&-"
