# shellcheck shell=bash disable=SC2154  # examples/check, which reads this file, gives the names that stand for nothing here
# the program lnc_c: calls of emitted C beside the signs of `run`, and what is refused
calls=$(readlink -f "${LNC_C:-$(bin/lnc_c --path)}")
c=crates/lnc_c/data/example.c
case_ 'the calls of docs/C.md' 0 "$(cat crates/lnc_c/stdout)" '' "$calls $c crates/lnc_c/data/calls"
for words in '' "$c" "$c $scratch/calls $scratch/calls"; do
  case_ "lnc_c with the words '$words'" 2 '' 'error usage' "$calls $words"
done

# one line of calls
printf 'g 1,2 5\n' >"$scratch/calls"
case_ 'a C file that is not there' 6 '' 'error read' "$calls $scratch/none $scratch/calls"
case_ 'calls that are not there' 6 '' 'error read' "$calls $c $scratch/none"
case_ 'a folder' 6 '' 'error read' "$calls $c $scratch"
case_ 'a C file that is none of the subset' 1 '' 'error subset' "$calls examples/signs.c $scratch/calls"
case_ 'an empty C file' 1 '' 'error subset' "$calls /dev/null $scratch/calls"
case_ 'a C file without a function' 0 'none' '' "echo '#include <stdint.h>' >$scratch/it.c && $calls $scratch/it.c $scratch/calls"
case_ 'calls of 64 MiB and a byte' 8 '' 'error long' "truncate -s 67108865 $scratch/long && $calls $c $scratch/long; status=\$?; rm $scratch/long; exit \$status"
case_ 'a C file of 64 MiB and a byte' 8 '' 'error long' "truncate -s 67108865 $scratch/long && $calls $scratch/long $scratch/calls; status=\$?; rm $scratch/long; exit \$status"
case_ 'a full device for the meanings' 7 '' '' "$calls $c $scratch/calls >/dev/full"
case_ 'a full device for the error' 7 '' '' "$calls 2>/dev/full"

# lines that are calls
meaning() { # LINE MEANING
  printf '%b' "$1" >"$scratch/calls"
  case_ "the call '$1'" 0 "$2" '' "$calls $c $scratch/calls"
}
meaning '' ''
meaning 'g 1,2 5' '1 0 1'
meaning 'g -9223372036854775808,9223372036854775807 -4611686018427387904\n' '0 0 1'
meaning 'g 1,2 -4611686018427387905\n' 'undefined 3'
meaning 'g 1 5\n' 'undefined 8'
meaning 'g  5\n' 'undefined 8'
meaning 'g 1,2 \n' 'undefined 3'
meaning 'f 1,2 5\n' 'none'
meaning ' 1,2 5\n' 'none'

# lines that aren't
refused() { # LINE
  printf 'g 1,2 5\n%b\ng\n' "$1" >"$scratch/calls"
  case_ "the line '$1'" 3 '' 'error call 2' "$calls $c $scratch/calls"
}
for line in '' 'g' 'g 1,2' 'g 1,2 5 ' 'g 1,2 5\r' 'g 1,,2 5' 'g 1,2 05' 'g 1,2 -0' 'g 1,2 9223372036854775808' '\xff 1,2 5'; do
  refused "$line"
done

# emitted C: 600 rows, of which every second is near 0
beside() { # SAMPLE NAME SITES COORDINATES MOST
  awk -v sites="$3" -v coordinates="$4" -v most="$5" -v name="$2" -v calls="$scratch/calls" 'BEGIN {
    srand(2); letters = "abcdexyz"
    if (sites == 3) letters = "pqr__xyz"
    for (i = 1; i <= sites; i++) { a = substr(letters, i, 1); line = line (i > 1 ? "," : "") a
      for (k = 1; k <= coordinates; k++) line = line "," a "." substr(letters, 5 + k, 1) }
    print line
    for (row = 0; row < 600; row++) {
      line = ""; x = ""; v = ""; reach = row % 2 ? most : 1
      for (i = 1; i <= sites; i++) {
        z = sprintf("%.0f", int(rand() * 1000) * sites + i); line = line (i > 1 ? "," : "") z; x = x (i > 1 ? "," : "") z
        for (k = 1; k <= coordinates; k++) { z = sprintf("%.0f", int(rand() * (2 * reach + 1)) - reach); line = line "," z; v = v (i + k > 2 ? "," : "") z }
      }
      print line; print "ln_" name " " x " " v >calls
    } }' >"$scratch/made.csv"
  case_ "$2 of $1 by its meaning" 0 'equal' '' "$lnc emit examples/$1.ln >$scratch/it.c && $lnc run examples/$1.ln $2 $scratch/made.csv | cut -c1 >$scratch/once &&
    $calls $scratch/it.c $scratch/calls | sed 's/^1 .*/+/; s/^-1 .*/-/' >$scratch/twice && cmp $scratch/once $scratch/twice && [ \$(wc -l <$scratch/once) = 600 ] && echo equal"
}
beside orientation/orient orient 3 2 1000
beside orientation/wide orient 3 2 1099511627776
beside incircle/incircle incircle 4 2 1048576
beside insphere/insphere insphere 5 3 1048576
