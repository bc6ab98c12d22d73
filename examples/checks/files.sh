# shellcheck shell=bash disable=SC2154  # examples/check, which reads this file, gives the names that stand for nothing here
# files
case_ 'a source that is not there' 6 '' 'error read' "$lnc check nosuch.ln"
case_ 'a rows file that is not there' 6 '' 'error read' "$run nosuch.csv"
case_ 'a folder as the source' 6 '' 'error read' "$lnc check examples"
for command in list emit; do
  case_ "$command of a source that is not there" 6 '' 'error read' "$lnc $command nosuch.ln"
  case_ "$command of a folder" 6 '' 'error read' "$lnc $command examples"
  case_ "$command of a refused source" 1 '' 'error bound 2:62' "$lnc $command examples/limits/too_heavy.ln"
done
case_ 'rows that are made for a folder' 6 '' 'error read' "$lnc gen examples incircle 1 5"
case_ 'a source that opens and cannot be read' 6 '' 'error read' "$lnc check /proc/self/mem"
case_ 'a rows file that opens and cannot be read' 6 '' 'error read' "$run /proc/self/mem"
case_ 'a source from a pipe' 0 'orient sites 3 stages 30' '' "cat $orient | $lnc check /dev/stdin"
# a pipe whose bytes come in two parts, the second after a pause: a file is opened once, and read on after a read that fills no buffer
slowly() { printf '{ head -c %s %s; sleep 0.3; tail -c +%s %s; }' "$2" "$1" $(($2 + 1)) "$1"; }
case_ 'a source from a slow pipe' 0 'orient sites 3 stages 30' '' "$(slowly "$orient" 200) | $lnc check /dev/stdin"
case_ 'rows from a slow pipe' 0 "$six" '' "$(slowly "$rows" 50) | $run /dev/stdin"
"$lnc" list "$orient" >"$scratch/slow.list"
case_ 'a listing from a slow pipe' 0 'valid' '' "$(slowly "$scratch/slow.list" 1000) | $lnc verify $orient /dev/stdin"
{ head -1 "$rows"; seq 300000 | sed 's/.*/&,0,0,0,2,1,300001,3,-1/'; } >"$scratch/slow.csv"
case_ 'more than 2 MiB of rows from a slow pipe' 0 '300000 - F' '' "[ \$(wc -c <$scratch/slow.csv) -gt 6000000 ] && $(slowly "$scratch/slow.csv" 2500000) | $run /dev/stdin | sort | uniq -c | sed 's/^ *//'"
rm -f "$scratch/slow.csv" "$scratch/slow.list"
# (root may read every file: then a copy of the program tries as nobody)
as_other=''; other=$program
cp "$orient" "$scratch/closed.ln"; chmod 000 "$scratch/closed.ln"
if [ -r "$scratch/closed.ln" ]; then
  as_other='setpriv --reuid=65534 --regid=65534 --clear-groups'
  cp "$program" "$scratch/lnc"; chmod 755 "$scratch" "$scratch/lnc"; other=$scratch/lnc
fi
for words in "check $scratch/closed.ln" "list $scratch/closed.ln" "emit $scratch/closed.ln" "gen $scratch/closed.ln orient 1 5"; do
  case_ "${words%% *} of a file that may not be read" 6 '' 'error read' "$as_other $other $words"
done
case_ 'a folder as the rows file' 6 '' 'error read' "$run examples"
case_ 'a name with a blank' 0 "$six" '' "cp $rows '$scratch/a b.csv'; $run '$scratch/a b.csv'"
case_ 'an empty rows file' 3 '' 'error header' ": >$scratch/empty.csv; $run $scratch/empty.csv"
case_ 'rows with a byte order mark and CRLF' 0 "$six" '' "printf '\\357\\273\\277' >$scratch/crlf.csv; sed 's/\$/\\r/' $rows >>$scratch/crlf.csv; $run $scratch/crlf.csv"
head -c 1048576 /dev/zero | tr '\0' ' ' >"$scratch/full.ln"
case_ 'a source of the limit' 0 '' '' "$lnc check $scratch/full.ln"
printf ' ' >>"$scratch/full.ln"
case_ 'a source of one byte more' 8 '' 'error long' "$lnc check $scratch/full.ln"
{ head -1 "$rows"; head -c 67108864 /dev/zero | tr '\0' '\n'; } | head -c 67108864 >"$scratch/full.csv"
case_ 'a rows file of the limit' 0 '' '' "$run $scratch/full.csv"
printf '\n' >>"$scratch/full.csv"
case_ 'a rows file of one byte more' 8 '' 'error long' "$run $scratch/full.csv"
rm -f "$scratch/full.csv"
