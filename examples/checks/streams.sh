# shellcheck shell=bash disable=SC2154  # examples/check, which reads this file, gives the names that stand for nothing here
# many calls and many lines: files that come byte by byte, output that goes so, a thousand interruptions in a row, and faults that stand far down. A body
# that gave up after a number of any of these has another status
gcc -std=gnu11 -Wall -Wextra -Werror -O2 -shared -fPIC -o "$scratch/interrupted.so" examples/checks/interrupted.c
shim="LD_PRELOAD=$scratch/interrupted.so INTERRUPTED=$scratch/count READS=0 WRITES=0"
many() { echo "[ \$(cut -d' ' -f$1 $scratch/count) -ge $2 ] && echo many"; } # WHICH NUMBER, by what was counted: interruptions, calls
{ cat "$orient"; head -c 12000 /dev/zero | tr '\0' ' '; } >"$scratch/long.ln"
{ head -1 "$rows"; for k in {1..200}; do sed 1d "$rows"; done; } >"$scratch/long.csv"
circle=examples/incircle/incircle.ln
"$lnc" list "$circle" >"$scratch/long.list"; "$lnc" explain "$orient" orient "$scratch/long.csv" >"$scratch/long.trace"
records=$(($(wc -l <"$scratch/long.csv") - 1))
case_ 'files of more than 10,000 bytes' 0 'yes' '' "for kind in ln csv list trace; do [ \$(wc -c <$scratch/long.\$kind) -gt 10000 ] || exit 1; done; echo yes"
case_ 'a source by reads of a byte' 0 $'orient sites 3 stages 30\nmany' '' "$shim BYTES=1 $program check $scratch/long.ln; $(many 2 10000)"
case_ 'rows by reads of a byte, signs by writes of a byte' 0 $'equal\nmany' '' "$program run $orient orient $scratch/long.csv >$scratch/once; $shim BYTES=1 $program run $orient orient $scratch/long.csv | cmp - $scratch/once && echo equal; $(many 2 10000)"
case_ 'a listing by reads of a byte' 0 $'valid\nmany' '' "$shim BYTES=1 $program verify $circle $scratch/long.list; $(many 2 10000)"
case_ 'a trace by reads of a byte' 0 "agreed $records"$'\nmany' '' "$shim BYTES=1 $program audit $orient orient $scratch/long.csv $scratch/long.trace; $(many 2 10000)"
case_ 'a listing by writes of a byte' 0 $'equal\nmany' '' "$shim BYTES=1 $program list $circle | cmp - $scratch/long.list && echo equal; $(many 2 10000)"
case_ 'a thousand interruptions before each read' 0 "$six"$'\nmany' '' "$shim READS=1000 $program run $orient orient $rows; $(many 1 2000)"
case_ 'a thousand interruptions before each write' 0 "$six"$'\nmany' '' "$shim WRITES=1000 $program run $orient orient $rows; $(many 1 1000)"
case_ 'a thousand interruptions before a refusal is written' 1 'many' 'error bound 2:62' "$shim WRITES=1000 $program check examples/limits/too_heavy.ln; s=\$?; $(many 1 1000); exit \$s"
case_ 'a trace is written through a thousand interruptions' 0 $'equal\nmany' '' "$shim READS=1000 WRITES=1000 $program explain $orient orient $scratch/long.csv | cmp - $scratch/long.trace && echo equal; $(many 1 2000)"
rm -f "$scratch"/long.*

# faults far down: of a trace, of calls, of rows
{ head -1 "$rows"; awk 'BEGIN { for (i = 0; i < 400000; i++) printf "%d,%d,%d,%d,%d,%d,%d,%d,%d\n", 3 * i, i % 7, i % 5, 3 * i + 1, i % 3, i % 4, 3 * i + 2, i % 2, i % 6 }'; } >"$scratch/made.csv"
"$lnc" explain "$orient" orient "$scratch/made.csv" >"$scratch/trace"
calls=$(readlink -f "${LNC_C:-$(bin/lnc_c --path)}")
for line in 65536 65537 70001 1000001 1200000; do
  case_ "a trace whose line $line is wrong" 5 "wrong $line" '' "sed '${line}s/.*/nothing/' $scratch/trace >$scratch/spoiled; $program audit $orient orient $scratch/made.csv $scratch/spoiled"
  case_ "calls whose line $line is wrong" 3 '' "error call $line" "yes 'g 1,2 5' | head -n $((line - 1)) >$scratch/calls; echo g >>$scratch/calls; $calls crates/lnc_c/data/example.c $scratch/calls"
done
for value in 70001 1000001; do
  case_ "a trace whose value in line $value is wrong" 5 "wrong $value" '' "awk -v wrong=$value 'NR == wrong { print \$1, \$2 == \":\" ? \": 77777\" : \"-\"; next } { print }' $scratch/trace >$scratch/spoiled; $program audit $orient orient $scratch/made.csv $scratch/spoiled"
done
case_ 'rows whose record 390,001 is none' 3 '390001:! fields' '' "sed '390002s/.*/1/' $scratch/made.csv >$scratch/spoiled; $program run $orient orient $scratch/spoiled >$scratch/once; s=\$?; grep -n '!' $scratch/once; exit \$s"
rm -f "$scratch/made.csv" "$scratch/trace" "$scratch/spoiled" "$scratch/calls" "$scratch/once"
