# shellcheck shell=bash disable=SC2154  # examples/check, which reads this file, gives the names that stand for nothing here
# one source that has the most of all at once: bytes, tokens, predicates, nodes, lets, sites, params, coordinates and letters of names;
# what each command puts is that of a plain program of the definitions (examples/checks/plain.py)
plain=examples/checks/plain.py; full=$scratch/full.ln
gcc -std=gnu11 -Wall -Wextra -Werror -O2 -o "$scratch/held" examples/checks/held.c; held=$scratch/held
python3 $plain largest >"$full"
case_ 'a source with the most of all' 0 '1048576 16' '' "echo \$(wc -c <$full) \$(grep -c ^predicate $full)"
case_ 'is checked' 0 'equal' '' "$held 20 $program check $full >$scratch/once && python3 $plain check $full >$scratch/twice && cmp $scratch/once $scratch/twice && [ \$(wc -l <$scratch/once) = 16 ] && echo equal"
case_ 'is listed' 0 '16' '' "$held 30 $program list $full >$scratch/long.list && grep -c ^predicate $scratch/long.list"
case_ 'its listing is valid' 0 'valid' '' "$held 30 $program verify $full $scratch/long.list"
case_ 'and no longer with a byte less' 5 "invalid $(wc -l <"$scratch/long.list")" '' "head -c -1 $scratch/long.list >$scratch/cut; $program verify $full $scratch/cut"
case_ 'is emitted' 0 '16' '' "$held 40 $program emit $full >$scratch/long.c && gcc -std=gnu99 -O0 -c $scratch/long.c -o $scratch/long.o && nm -g --defined-only $scratch/long.o | grep -c ' T ln_predicate_'"
names=$(sed -n 's/^predicate \([a-z0-9_]*\).*/\1/p' "$full" | sed -n '1p;8p;16p')
for name in $names; do
  python3 $plain rows "$full" "$name" 400 >"$scratch/made.csv"
  case_ "rows of $name" 0 'equal' '' "$held 20 $program run $full $name $scratch/made.csv | sed 's/F\$/0/' >$scratch/once; python3 $plain run $full $name $scratch/made.csv >$scratch/twice;
    cmp $scratch/once $scratch/twice && [ \$(wc -l <$scratch/once) = 400 ] && [ \$(grep -c '[1-9]' $scratch/once) -ge 50 ] && echo equal"
  case_ "the C of $name" 0 'equal' '' "gcc -std=gnu99 -DCALL=ln_$name examples/signs.c $scratch/long.o -o $scratch/it && $scratch/it <$scratch/made.csv >$scratch/once; cut -c1 $scratch/twice | cmp - $scratch/once && echo equal"
  case_ "rows of $name that are made" 0 'equal' '' "$held 20 $program gen $full $name 1 2000 | awk '\$1 == \"deciders\" { \$0 = \"deciders plain \" \$3 + \$5 \" stages \" \$7 \" none \" \$9 \" deepest \" \$11 } { print }' >$scratch/once
    python3 $plain gen $full $name 1 2000 >$scratch/twice; cmp $scratch/once $scratch/twice && echo equal"
done
# one more of anything is refused
case_ 'one byte more' 8 '' 'error long' "echo >>$full; $program check $full"
case_ 'one token more' 1 '' "error limit $(($(wc -l <"$full") - 1)):1" "head -n -2 $full >$scratch/cut; echo ';' >>$scratch/cut; $program check $scratch/cut"
case_ 'one letter more' 1 '' 'error limit 1:6' "head -n -2 $full | sed '1s/site t/site tt/' >$scratch/cut; $program check $scratch/cut"
case_ 'one node more' 1 '' 'yes' "head -n -2 $full | sed 's/^sign \(.*\);/sign \1 + 1;/' >$scratch/cut; $program check $scratch/cut 2>&1 | sed 's/^error limit .*/yes/' >&2; exit 1"
rm -f "$scratch"/long*
