# shellcheck shell=bash disable=SC2154  # examples/check, which reads this file, gives the names that stand for nothing here
# traces of rows: what `explain` writes and what `audit` says, by a plain program of the rules
same=examples/orientation/same.csv
trace="$scratch/trace"
case_ 'the trace of a row' 0 'equal' '' "$lnc explain $orient orient $same >$trace; python3 examples/checks/traces.py explain $orient orient $same | cmp - $trace && echo equal"
case_ 'it is agreed' 0 'agreed 1' '' "$lnc audit $orient orient $same $trace"
case_ 'a trace needs its file' 2 '' 'error usage' "$lnc audit $orient orient $same"
case_ 'no such predicate to explain' 4 '' 'error predicate' "$lnc explain $orient nosuch $same"
case_ 'a wrong header comes before the form of a trace' 3 '' 'error header' "echo x >$trace; $lnc audit $orient orient examples/squares/rows.csv $trace"
case_ 'a trace that is not there' 6 '' 'error read' "$lnc audit $orient orient $same $scratch/nosuch"
{ head -1 "$same"; echo 1,2; sed -n 2p "$same"; } >"$scratch/refused.csv"
case_ 'a refused record in a trace' 0 $'trace 1\nrefused 1\nrow 2\nat : 0\nstatus 3\nagreed 2' '' "$lnc explain $orient orient $scratch/refused.csv >$trace; s=\$?; head -4 $trace; echo status \$s; $lnc audit $orient orient $scratch/refused.csv $trace"
head -1 "$same" >"$scratch/none.csv"
case_ 'a trace of no record' 0 $'trace 1\nagreed 0' '' "$lnc explain $orient orient $scratch/none.csv | tee $trace; $lnc audit $orient orient $scratch/none.csv $trace"
for sample in orientation/orient:orient:orientation/rows squares/squares:s:squares/rows incircle/incircle:incircle:incircle/rows; do
  IFS=: read -r source name table <<<"$sample"
  case_ "the trace of $table and those like it" 0 'equal' '' "python3 examples/checks/traces.py spoiled $program examples/$source.ln $name examples/$table.csv | sed 's/^[0-9]* //'"
done
case_ 'the trace of a million rows' 0 'agreed 1000000' '' "{ head -1 $rows; awk 'BEGIN { for (i = 0; i < 1000000; i++) printf \"%d,%d,%d,%d,%d,%d,%d,%d,%d\\n\", 3 * i, i % 7, i % 5, 3 * i + 1, i % 3, i % 4, 3 * i + 2, i % 2, i % 6 }'; } >$scratch/made.csv; $lnc explain $orient orient $scratch/made.csv >$trace; [ \$(wc -c <$trace) -le 67108864 ] && $lnc audit $orient orient $scratch/made.csv $trace"
rm -f "$trace" "$scratch/made.csv"
