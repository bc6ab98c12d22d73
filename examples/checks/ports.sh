# shellcheck shell=bash disable=SC2154  # examples/check, which reads this file, gives the names that stand for nothing here
# ports
{ head -1 "$rows"; yes 1,0,0,2,1,0,3,0,1 | head -200000; } >"$scratch/many.csv"
case_ 'two hundred thousand rows' 0 '200000' '' "$run $scratch/many.csv | grep -c '^+ F\$'"
# (whose end the program sees by a status, or the system ends it)
case_ 'a pipe that closes early' 0 '+ F' '' "set -o pipefail; { $run $scratch/many.csv; s=\$?; [ \$s = 7 ] || [ \$s = 141 ]; } | head -1"
for words in "list $insphere" "emit $insphere"; do
  case_ "a pipe that closes early on ${words%% *}" 0 '1' '' "set -o pipefail; { $lnc $words; s=\$?; [ \$s = 7 ] || [ \$s = 141 ]; } | head -c 1 | wc -c"
done
case_ 'a full device' 7 '' '' "$run $rows >/dev/full"
for words in "check $orient" "list $orient" "emit $orient" "list $insphere" "emit $insphere" "gen $orient orient 1 5"; do
  case_ "a full device for $words" 7 '' '' "$lnc $words >/dev/full"
done
case_ 'a closed port' 7 '' '' "$run $rows >&-"
case_ 'a listing on a closed port' 7 '' '' "$lnc list $orient >&-"
case_ 'C on a closed port' 7 '' '' "$lnc emit $orient >&-"
case_ 'a refused source on a closed port for errors' 7 '' '' "$lnc check examples/limits/too_heavy.ln 2>&-"
