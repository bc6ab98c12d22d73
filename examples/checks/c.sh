# shellcheck shell=bash disable=SC2154  # examples/check, which reads this file, gives the names that stand for nothing here
# what is emitted, with filters and without: compiled without a warning, and its signs beside those of `run`, on rows of which every second is
# near 0. The program lnc_exact is the one in LNC_EXACT, or that of the checkout, which the gate builds
exact=$(readlink -f "${LNC_EXACT:-$(bin/lnc_exact --path)}")
made() { # HEADER LOW HIGH COUNT
  awk -v header="$1" -v low="$2" -v high="$3" -v count="$4" 'BEGIN {
    srand(1); print header; n = split(header, name, ",")
    for (row = 0; row < count; row++) {
      index_ = 5000 + int(rand() * 1000); step = 2 * int(rand() * 2) - 1; line = ""
      least = row % 2 || low > -2 ? low : -2; most = row % 2 ? high : 2
      for (i = 1; i <= n; i++) {
        z = i < n && index(name[i + 1], name[i] ".") == 1 ? index_ + step * i : least + int(rand() * (most - least + 1))
        line = line (i > 1 ? "," : "") sprintf("%.0f", z)
      }
      print line
    }
  }'
}
compared() { # COMPILER SAMPLE NAME PROGRAM
  local strict='-std=gnu99 -Wall -Wextra -Werror -O2'
  [ "$3" = insphere ] && strict=${strict%2}0
  case_ "$3 of $2 by $1 and ${4##*/}" 0 'equal' '' "$4 examples/$2.ln >$scratch/it.c && $1 $strict -DCALL=ln_$3 examples/signs.c $scratch/it.c -o $scratch/it &&
    $lnc run examples/$2.ln $3 $scratch/made.csv | cut -c1 >$scratch/once && $scratch/it <$scratch/made.csv >$scratch/twice &&
    cmp $scratch/once $scratch/twice && [ \$(wc -l <$scratch/once) = 600 ] && echo equal"
}
echo 'site num { t: -9 .. 9; } predicate f(a: num, b: num) { let d = a.t*b.t; sign a.t - b.t; }' >"$scratch/unused.ln"
echo 'site num { t: -9 .. 9; } predicate f(a: num) { let z = 0*170141183460469231731687303715884105727; sign a.t + z; }' >"$scratch/cut.ln"
for compiler in gcc clang; do
  while read -r sample name header low high; do
    made "$header" "$low" "$high" 600 >"$scratch/made.csv"
    compared $compiler "$sample" "$name" "$lnc emit"
    [ $compiler = clang ] || [ ! -x "$exact" ] || compared $compiler "$sample" "$name" "$exact"
  done <<'ROWS'
orientation/orient orient p,p.x,p.y,q,q.x,q.y,r,r.x,r.y -1000 1000
orientation/wide orient p,p.x,p.y,q,q.x,q.y,r,r.x,r.y -1099511627776 1099511627776
squares/squares s a,a.t,b,b.t -10 10
params/scaled z a,a.t,c 0 5
limits/just_light big a,a.t,b,b.t,c,c.t,d,d.t -4503599627370496 4503599627370496
limits/large_literal nf a,a.t -10 10
incircle/incircle incircle a,a.x,a.y,b,b.x,b.y,c,c.x,c.y,d,d.x,d.y -1048576 1048576
insphere/insphere insphere a,a.x,a.y,a.z,b,b.x,b.y,b.z,c,c.x,c.y,c.z,d,d.x,d.y,d.z,e,e.x,e.y,e.z -1048576 1048576
ROWS
  for sample in unused cut; do
    case_ "a declaration that nothing reads, $sample, by $compiler" 0 '' '' "$lnc emit $scratch/$sample.ln >$scratch/it.c && $compiler -std=gnu99 -Wall -Wextra -Werror -O2 -c $scratch/it.c -o $scratch/it.o"
  done
  case_ "what the C exports by $compiler" 0 'ln_incircle ln_orient' '' "$lnc emit examples/mesh/mesh.ln >$scratch/it.c && $compiler -std=gnu99 -O2 -c $scratch/it.c -o $scratch/it.o && echo \$(nm -g --defined-only $scratch/it.o | awk '{ print \$3 }' | sort)"
done

# without filters: the bytes are those of `emit` but for the filters and their calls, and it ends as `emit` does
case_ 'the C of less.ln without its filter' 0 "$(cat crates/lnc_exact/stdout)" '' "$exact crates/lnc_exact/data/less.ln"
unfiltered() { # of what emit writes
  awk 'drop { drop--; next }
    /^static int lf_/ { gone = 1 } gone { gone = $0 != ""; next }
    /= \(\(int\)lf_/ { kept = 0; drop = 4; next }
    { if (kept) print line; line = $0; kept = 1 } END { if (kept) print line }'
}
same_end() { # NAME COMMAND, in which PROGRAM stands for the two
  local wanted got
  wanted=$(bash -c "${2//PROGRAM/$lnc emit}" 2>&1 >"$scratch/once" </dev/null; echo "status $?")
  got=$(bash -c "${2//PROGRAM/$exact}" 2>&1 >"$scratch/twice" </dev/null; echo "status $?")
  judge "$1: the end" "$wanted" "$got"
  judge "$1: the text" yes "$(unfiltered <"$scratch/once" | cmp - "$scratch/twice" && echo yes)"
}
for sample in $samples limits/too_heavy; do same_end "$sample" "PROGRAM examples/$sample.ln"; done
refused() { # NAME TEXT
  printf '%s' "$2" >"$scratch/it.ln"
  same_end "$1" "PROGRAM $scratch/it.ln"
}
refused 'no text' ''
refused 'a token' 'site num { t: -9 .. 9; } predicate f(a: num) { sign a.t $ 1; }'
refused 'a name' 'site num { t: -9 .. 9; } predicate f(a: num) { sign b.t; }'
refused 'a zero' 'site num { t: -9 .. 9; } predicate f(a: num) { sign a.t - a.t; }'
refused 'terms' 'site s { x: 0 .. 1; y: 0 .. 1; z: 0 .. 1; } predicate f(a: s, b: s) { sign (a.x + a.y + a.z + b.x + b.y + b.z)^9; }'
refused 'two predicates' 'site num { t: -9 .. 9; } param c: 0 .. 5; predicate f(a: num, c: param) { sign a.t - c; } predicate g(b: num) { sign b.t; }'
same_end 'a folder' "PROGRAM $scratch"
same_end 'a file that is not there' "PROGRAM $scratch/none"
same_end 'a file over the limit' "truncate -s 1048577 $scratch/long; PROGRAM $scratch/long"
same_end 'no word' PROGRAM
same_end 'two words' "PROGRAM $orient $orient"
same_end 'a word that is no text' "PROGRAM $'\\xff'"
same_end 'a full device for the text' "PROGRAM $orient >/dev/full"
same_end 'a full device for the line' "PROGRAM $scratch/none 2>/dev/full"
same_end 'little memory' "ulimit -v 5000; PROGRAM $insphere"

# of one order: la_ where each exchange of two sites turns the sign, ls_ where it keeps it, ln_ where neither holds or there is one site
cat >"$scratch/four.ln" <<'LN'
site point { x: -9 .. 9; y: -9 .. 9; }
predicate orient(p: point, q: point, r: point) { sign (p.x - r.x)*(q.y - r.y) - (p.y - r.y)*(q.x - r.x); }
predicate apart(p: point, q: point) { sign (p.x - q.x)^2 + (p.y - q.y)^2 - 5; }
predicate wide(p: point, q: point, r: point) { sign (p.x - r.x)*(q.x - r.x) + (p.y - r.y)*(q.y - r.y); }
predicate right(p: point) { sign p.x; }
LN
case_ 'the functions of one order' 0 'la_orient ls_apart ln_wide ln_right' '' "echo \$($exact turning $scratch/four.ln | sed -n 's/^int \(l[a-z]_[a-z]*\)(.*/\1/p')"
grep -v 'orient\|apart' "$scratch/four.ln" >"$scratch/turning"
case_ 'none of one order: the text is the same' 0 same '' "$exact $scratch/turning >$scratch/once && $exact turning $scratch/turning | cmp - $scratch/once && echo same"
case_ 'a file that is named turning' 0 same '' "cd $scratch && $exact turning | cmp - once && echo same"
case_ 'of one order: a file that is not there' 6 '' 'error read' "$exact turning $scratch/none"
for compiler in gcc clang; do
  made a,a.x,a.y,b,b.x,b.y,c,c.x,c.y,d,d.x,d.y -1048576 1048576 1200 | awk -F, 'NR == 1 || $1 < $4' >"$scratch/made.csv"
  case_ "la_incircle on rows whose indices rise, by $compiler" 0 'equal' '' "$exact turning examples/incircle/incircle.ln >$scratch/it.c &&
    $compiler -std=gnu99 -Wall -Wextra -Werror -O2 -DCALL=la_incircle examples/signs.c $scratch/it.c -o $scratch/it &&
    $lnc run examples/incircle/incircle.ln incircle $scratch/made.csv | cut -c1 >$scratch/once && $scratch/it <$scratch/made.csv >$scratch/twice &&
    cmp $scratch/once $scratch/twice && [ \$(wc -l <$scratch/once) -gt 500 ] && echo equal"
done
