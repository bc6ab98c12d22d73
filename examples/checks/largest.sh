# shellcheck shell=bash disable=SC2154  # examples/check, which reads this file, gives the names that stand for nothing here
# bin/largest, by ranges that are known
largest() { # NAME STATUS OUT ERR SOURCE
  printf '%s\n' "$5" >"$scratch/source.ln"
  case_ "largest: $1" "$2" "$3" "$4" "LNC=$lnc bin/largest $scratch/source.ln"
}
largest 'each predicate alone, with its own ranges' 0 $'f 2^62\ng 2^10\nh any: its ranges are 0 alone' '' 'site a { x: -1 .. 1; } param c: 0 .. 4503599627370496; site z { x: 0 .. 0; }
  predicate f(p: a) { sign p.x; } predicate g(p: a, c: param) { sign p.x + c; } // param d: 0 .. 1;
  predicate h(p: z) { sign p.x; }'
largest 'a refused one, ends rounded outwards' 1 'f 2^-21, too large by 21 bits: bound' '' \
  'site a { x: -9223372036854775807 .. 9223372036854775807; } predicate f(p: a) { sign p.x*p.x*p.x; }'
largest "and of the largest nothing is left" 0 "f 2^0" "" "site a { x: -4398046511104 .. 4398046511104; } predicate f(p: a) { sign p.x*p.x*p.x; }"
case_ 'and the next is not' 1 '' 'error bound 1:80' "printf 'site a { x: -8796093022208 .. 8796093022208; } predicate f(p: a) { sign p.x*p.x*p.x; }' | $lnc check /dev/stdin"
largest 'no size helps' 1 $'f refused at every size: zero\ng 2^59' '' 'site t { x: 0 .. 9; } predicate f(p: t) { sign p.x - p.x; } predicate g(p: t) { sign p.x; }'
largest 'a source that is none' 1 '' 'error syntax 1:10' 'site a { }'
case_ 'largest: no file' 1 '' 'error read' "LNC=$lnc bin/largest $scratch/nosuch"
