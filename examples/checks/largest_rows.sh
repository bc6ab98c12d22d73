# shellcheck shell=bash disable=SC2154  # examples/check, which reads this file, gives the names that stand for nothing here
# rows files and listings of the largest size. How much memory a command may hold is a limit of each case (examples/checks/held.c)
gcc -std=gnu11 -Wall -Wextra -Werror -O2 -o "$scratch/rows" examples/checks/rows.c && gcc -std=gnu11 -Wall -Wextra -Werror -O2 -o "$scratch/held" examples/checks/held.c
held=$scratch/held
case_ 'a million rows and more, and records that are none, each by a program of the definition' 3 'equal' '' "$scratch/rows 67108864 $scratch/full.csv $scratch/lines && [ \$(wc -c <$scratch/full.csv) -gt 67000000 ] && [ \$(wc -l <$scratch/lines) -gt 1400000 ] &&
  $held 80 $run $scratch/full.csv >$scratch/once; s=\$?; cmp $scratch/once $scratch/lines && echo equal; exit \$s"
rm -f "$scratch/full.csv" "$scratch/lines" "$scratch/once"
header=$(head -1 "$rows")
zeros() { head -c "$1" /dev/zero | tr '\0' 0; }
{ echo "$header"; for k in 98 99 100 101; do echo "$(zeros "$k")1,0,-$(zeros "$k"),2,1,0,3,$(zeros "$k")0,1"; done; } >"$scratch/long.csv"
case_ 'fields of about 100 digits, most of them zeros' 0 $'+ F\n+ F\n+ F\n+ F' '' "$run $scratch/long.csv"
{ echo "$header"; echo "1,$(zeros 100 | tr 0 9),0,2,1,0,3,0,1"; echo "1,0,0,-1$(zeros 100),1,0,3,0,1"; echo "1,0,0,2,-$(zeros 100)1001,0,3,0,1"; echo "1,0,0,2,1,0,3,0,1$(zeros 100)x"; } >"$scratch/long.csv"
case_ 'fields of 100 digits that are no number in range' 3 $'! range p.x\n! range q\n! range q.x\n! number r.y' '' "$run $scratch/long.csv"
{ echo "$header"; printf '1,0,0,2,1,0,3,0,'; zeros 60000000; echo 1; echo 1,0,0,2,1,0,3,0,-1; } >"$scratch/long.csv"
case_ 'a field of 60 million digits' 0 $'+ F\n- F' '' "$held 200 $run $scratch/long.csv"
{ echo "$header"; printf '1,0,0,2,1,0,3,0,'; zeros 60000000 | tr 0 9; echo; printf '"1",0,0,2,1,0,3,0,1\n'; } >"$scratch/long.csv"
case_ 'a field of 60 million digits that is a large number' 3 $'! range r.y\n+ F' '' "$held 200 $run $scratch/long.csv"
{ echo "$header"; printf '1,0,0,2,1,0,3,0,'; zeros 60000000; echo 1x; echo 1,0,0,2,1,0,3,0,-1; } >"$scratch/long.csv"
case_ 'a field of 60 million digits that is no number' 3 $'! number r.y\n- F' '' "$held 200 $run $scratch/long.csv"
{ echo "$header"; head -c 60000000 /dev/zero | tr '\0' ,; echo; echo 1,0,0,2,1,0,3,0,-1; } >"$scratch/long.csv"
case_ 'a record of 60 million fields' 3 $'! fields\n- F' '' "$held 80 $run $scratch/long.csv"
rm -f "$scratch/long.csv"

# a valid listing near its limit: to that of the sample come 20,000 blocks that no list names, and sets and gets that change nothing
"$lnc" list "$orient" >"$scratch/listing"
awk -v size=67108864 '
  /^block 0$/ { inside = 1 } inside { first = first $0 "\n" } /^end$/ { inside = 0 } /^block/ { n++ }
  /^order/ && !more { more = 1
    for (k = 0; k < 20000; k++) { block = first; sub(/^block 0/, "block " n++, block); text = text block }
    printf "%s", text; filled += length(text)
    block = first; sub(/^block 0/, "block " n, block); at = index(block, "\n"); at += index(substr(block, at + 1), "\n")
    split(substr(block, 1, at - 1), lines, "\n"); split(lines[2], words, " ")
    printf "%s", substr(block, 1, at); filled += length(block)
    for (pair = "set 9\nget 9 " words[3] " " words[4] "\n"; filled + 2000 < size; filled += length(pair)) printf "%s", pair
    printf "%s", substr(block, at + 1) }
  { print; filled += length($0) + 1 }' "$scratch/listing" >"$scratch/long.list"
case_ 'a listing near the limit' 0 'near' '' "[ \$(wc -c <$scratch/long.list) -gt 67000000 ] && [ \$(wc -c <$scratch/long.list) -le 67108864 ] && [ \$(grep -c ^block $scratch/long.list) -gt 20000 ] && echo near"
case_ 'is valid' 0 'valid' '' "$held 90 $lnc verify $orient $scratch/long.list"
lines=$(wc -l <"$scratch/long.list")
truncate -s -5 "$scratch/long.list"
case_ 'and invalid without its end' 5 "invalid $lines" '' "$held 90 $lnc verify $orient $scratch/long.list"
truncate -s -1 "$scratch/long.list"; printf ' 0\ndone\n' >>"$scratch/long.list"
case_ 'and invalid at its last order, of one block too many' 5 "invalid $((lines - 1))" '' "$held 90 $lnc verify $orient $scratch/long.list"
truncate -s 67108865 "$scratch/long.list"
case_ 'and too long with a byte more than the limit' 8 '' 'error long' "$lnc verify $orient $scratch/long.list"
rm -f "$scratch/long.list"
