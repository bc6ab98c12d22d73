# shellcheck shell=bash disable=SC2154  # examples/check, which reads this file, gives the names that stand for nothing here
# the time of processor for 1,500,000 rows, beside that of a C program that reads the same rows, the best of three runs each (examples/checks/timed.py): a
# reader of rows that takes each field as text, or a write for each line, takes two to four times as long. (outside.sh counts the writes)
awk 'BEGIN { srand(1); print "p,p.x,p.y,q,q.x,q.y,r,r.x,r.y"
  for (i = 0; i < 1500000; i++) { for (k = 0; k < 3; k++) printf "%s%d,%d,%d", k ? "," : "", (i + k) % 3, int(rand() * 2001) - 1000, int(rand() * 2001) - 1000; print "" } }' >"$scratch/rows.csv"
"$lnc" emit "$orient" >"$scratch/orient.c" && gcc -std=gnu99 -O2 -DCALL=ln_orient -o "$scratch/plain" examples/signs.c "$scratch/orient.c"
case_ 'a million rows and a half take little more time than in C' 0 'within' '' "python3 examples/checks/timed.py 2 $scratch/rows.csv $scratch/plain -- $program run $orient orient"
rm -f "$scratch/rows.csv"
