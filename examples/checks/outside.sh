# shellcheck shell=bash disable=SC2154  # examples/check, which reads this file, gives the names that stand for nothing here
circle=examples/incircle/incircle.ln
# words: more of them than any command has
case_ 'eight words' 2 '' 'error usage' "$program run $orient orient $rows a b c d"
case_ 'a sixth word that changes nothing otherwise' 2 '' 'error usage' "$program gen $circle incircle 1 5 extra"
case_ 'a sixth word that is empty' 2 '' 'error usage' "$program gen $circle incircle 1 5 ''"
case_ 'a hundred thousand words' 2 '' 'error usage' "$program check $orient \$(seq 100000)"

# names of files: long ones, such as aren't ASCII, and two that share their front
deep=$scratch/deep; while [ ${#deep} -lt 3780 ]; do deep=$deep/$(printf '%0200d' 0); done
mkdir -p "$deep"; deep=$deep/$(printf "%0$((4000 - ${#deep} - 1))d" 1)
cp "$orient" "$deep"
case_ 'a path of 4,000 bytes' 0 $'orient sites 3 stages 30\n4001' '' "$program check $deep; echo $deep | wc -c"
case_ 'rows by a path of 4,000 bytes' 0 "$six" '' "cat $rows >$deep && $program run $orient orient $deep"
case_ 'a listing by a path of 4,000 bytes' 0 'valid' '' "$lnc list $orient >$deep && $program verify $orient $deep"
case_ 'no file by a path of 4,000 bytes' 6 '' 'error read' "$program check ${deep%?}2"
case_ 'a path of 5,000 bytes' 6 '' 'error read' "$program check $deep$(printf '%01000d' 0)"
for name in 'ä' 'Ω≈ç√' '点と線.ln' $'a\xcc\x88' '🔺' $'a\tb\nc' '-' '--' '--help' '*' '"' 'at its end ' ' at its begin' ' '; do
  cp "$orient" "$scratch/$name"
  case_ "a file of the name $name" 0 'orient sites 3 stages 30' '' "cd $scratch && $program check '$name'"
done
cp "$rows" "$scratch/строки.csv"
case_ 'rows in a file whose name is not ASCII' 0 "$six" '' "$program run $orient orient $scratch/строки.csv"
: >"$scratch/alike"; printf 'listing 2\n' >"$scratch/alike.list"; : >"$scratch/blike"
case_ 'two names that share their front, the first file empty' 0 'valid' '' "$program verify $scratch/alike $scratch/alike.list"
case_ 'two such that are not empty' 5 'invalid 2' '' "cp $orient $scratch/alike.ln; $program verify $scratch/alike.ln $scratch/alike.list"
case_ 'an empty listing beside an empty source' 5 'invalid 1' '' "$program verify $scratch/alike $scratch/blike"
case_ 'one file as the source and as rows' 3 '' 'error header' "$program run $orient orient $orient"

# the lines of gen by a program of the definition: with fewer than three rows that a perturbation decided they stand in another order
made_too() { # FILE NAME SEED COUNT
  case_ "gen of $2 from $3, $4 rows" 0 'equal' '' "$program gen $* | awk '\$1 == \"deciders\" { \$0 = \"deciders plain \" \$3 + \$5 \" stages \" \$7 \" none \" \$9 \" deepest \" \$11 } { print }' >$scratch/once; python3 examples/checks/plain.py gen $* >$scratch/twice; cmp $scratch/once $scratch/twice && echo equal"
}
made_too examples/squares/squares.ln s 1 8
made_too examples/squares/squares.ln s 9 8
made_too examples/squares/squares.ln s 7 5000
made_too "$orient" orient 7 1
made_too "$circle" incircle 123456789012345678 11
made_too "$circle" incircle 3 5000
made_too examples/params/scaled.ln z 5 3000
case_ 'no perturbed row' 0 $'signs + 1 0 0 - 0\ndeciders filter 1 plain 0 stages 0 none 0 deepest 0\nfirst' '' "$program gen $orient orient 7 1"
case_ 'one perturbed row' 0 'first 6' '' "$program gen examples/squares/squares.ln s 1 8 | tail -1"

# interruptions: three in a row before each read and each write
gcc -Wall -Wextra -Werror -O2 -shared -fPIC -o "$scratch/interrupted.so" examples/checks/interrupted.c
case_ 'three interruptions in a row' 0 "$six" '' "LD_PRELOAD=$scratch/interrupted.so INTERRUPTED=$scratch/count $program run $orient orient $rows"
case_ 'before each call' 0 'yes' '' "[ \$(cut -d' ' -f1 $scratch/count) -ge 9 ] && echo yes"
{ head -1 "$rows"; yes 1,0,0,2,1,0,3,0,1 | head -100000; } >"$scratch/many.csv"
case_ 'a hundred thousand rows are read and written in pieces' 0 $'100000\nfew calls' '' "LD_PRELOAD=$scratch/interrupted.so INTERRUPTED=$scratch/count $program run $orient orient $scratch/many.csv | wc -l; [ \$(cut -d' ' -f1 $scratch/count) -lt 3000 ] && echo few calls"
rm -f "$scratch/many.csv"
case_ 'and a refusal' 1 '' 'error bound 2:62' "LD_PRELOAD=$scratch/interrupted.so $program check examples/limits/too_heavy.ln"

# ports: a file that is full before the last bytes of a long text; a full pipe that doesn't block; no standard error
"$program" list "$insphere" >"$scratch/long"
blocks=$((($(wc -c <"$scratch/long") - 1) / 1024))
# (by bin/lnc, in a checkout in which the program is built)
mkdir -p "$scratch/built/bin" "$scratch/built/crates/lnc/src" "$scratch/built/crates/lnc/out"
cp bin/lnc bin/stamp "$scratch/built/bin"; cp "$program" "$scratch/built/crates/lnc/out/lnc"
echo 'lnc:' >"$scratch/built/crates.txt"; : >"$scratch/built/crates/lnc/src/main.rt"
"$scratch/built/bin/stamp" lnc "$scratch/built/crates/lnc/out/lnc" >"$scratch/built/crates/lnc/out/stamp"
case_ 'the last bytes of a long text find no room' 7 'the rest is there' '' "(ulimit -f $blocks; exec $scratch/built/bin/lnc list $insphere) >$scratch/most; s=\$?
  head -c $((1024 * blocks)) $scratch/long | cmp - $scratch/most && echo the rest is there; exit \$s"
cat >"$scratch/nonblocking.py" <<'PY'
import fcntl, os, subprocess, sys
out, into = os.pipe()
os.set_blocking(into, False)
run = subprocess.run(sys.argv[1:], stdout=into, stderr=subprocess.PIPE)
os.close(into)
text = open(out, "rb").read()
print(run.returncode, len(run.stderr), len(text) >= 4096 and open(os.environ["WHOLE"], "rb").read().startswith(text))
PY
case_ 'a full pipe that does not block counts as a fault' 0 '7 0 True' '' "WHOLE=$scratch/long python3 $scratch/nonblocking.py $program list $insphere"
case_ 'a pipe that does not block and has room' 0 '0 0 False' '' "WHOLE=$scratch/long python3 $scratch/nonblocking.py $program check $insphere"
case_ 'no standard error, and nothing to say there' 0 "$six" '' "$program run $orient orient $rows 2>&-"
for words in "check $orient" "gen $orient orient 7 1" "list $orient" "emit $orient" "verify $insphere $scratch/long"; do
  case_ "no standard error for ${words%% *}" 0 'yes' '' "set -o pipefail; $program $words 2>&- | grep -q . && echo yes"
done
case_ 'no standard error for a word that is no command' 7 '' '' "$program draw 2>&-"
case_ 'no standard error for a file that is not there' 7 '' '' "$program check nosuch.ln 2>&-"
case_ 'no port at all' 7 '' '' "$program check $orient >&- 2>&- <&-"
