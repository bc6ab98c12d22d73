# shellcheck shell=bash disable=SC2154,SC2016  # examples/check, which reads this file, gives the names that stand for nothing here
# bin/why and bin/rows. What could stand at a place is worked out from the grammar of docs/LANGUAGE.md by hand
why() { # NAME STATUS OUT SOURCE
  printf '%s' "$4" >"$scratch/source.ln"
  case_ "why: $1" "$2" "$3" '' "LNC=$lnc bin/why $scratch/source.ln"
}
syntax="syntax: no source goes on like this: here is the first token that can't follow those before it"
lexical='lexical: no token begins with this byte, or too many tokens come before it'
why 'a sign before a term' 1 "error syntax 1:47

param c: 0 .. 5; predicate f(c: param) { sign +c; }
                                              ^
there is: +
could stand there: a NAME a NUMBER ( -
$syntax" 'param c: 0 .. 5; predicate f(c: param) { sign +c; }'
why 'an end that comes too early, after blanks and a comment' 1 "error syntax 3:1


^
there is: the end of the file
could stand there: {
$syntax" $'site a\n  // no more\n'
why 'at the top, among lines and tabs' 1 $'error syntax 2:2\n\n\tc: 0 .. 9;\n\t^\nthere is: c\ncould stand there: site param predicate the end of the file\n'"$syntax" $'site a { x: 0 .. 9; }\n\tc: 0 .. 9;\n'
why 'after a number in a range' 1 "error syntax 1:16

param c: 0 .. 5.5;
               ^
there is: .
could stand there: ;
$syntax
write: integers: put the coordinates on a grid (FAQ.md) (for \`site a { x: 0 .. 9.5; } predicate f(p: a) { sign p.x; }\`)" 'param c: 0 .. 5.5;'
why 'a byte that is none of the language' 1 "error lexical 1:29

site a { x: 0 .. 1; }  site ??
                            ^
there is: the byte 0xc3
could stand there: a NAME
$lexical" 'site a { x: 0 .. 1; }  site é'
why 'a name' 1 'error name 2:18

predicate two(p: pint) { sign p.x; }
                 ^
there is: pint
name: a name that isn'\''t declared before, is declared twice or is of another kind
it may be a NAME after an argument'\''s colon that is no site type declared before: `site a { x: 0 .. 1; } predicate f(p: b) { sign p.x; }`' \
  $'site point { x: 0 .. 1; }\npredicate two(p: pint) { sign p.x; }\n'
why 'too large' 1 'error bound 2:62

predicate big(a: num, b: num, c: num, d: num) { sign a.t*b.t + c.t*d.t; }
                                                             ^
there is: +
bound: by the ranges a value, or the polynomial as a whole, could exceed 2^127 - 1 here
write: narrow the ranges (a coarser grid), or translate to a nearby origin first' "$(cat examples/limits/too_heavy.ln)"
why 'a long line, in part' 1 "error syntax 1:330

...$(printf '%060d;' 0 | tr 0 ' ')
$(printf '%063d' 0 | tr 0 ' ')^
there is: ;
could stand there: site param predicate the end of the file
$syntax" "site a { x: 0 .. 1; }$(printf '%0308d' 0 | tr 0 ' ');"
# each row of what to write instead is found by its own source, by one of other names, and by no other row's
judge 'what docs/LANGUAGE.md says to write is said' '' "$(
  sed -n '/^| you wrote/,/^$/s/^| `\(.*\)` | `error [a-z]* [0-9:]*` | .*/\1/p' docs/LANGUAGE.md | while IFS= read -r source; do
    for renamed in "$source" "$(sed 's/\ba\b/point/g; s/\bf\b/other/g' <<<"$source")"; do
      printf '%s\n' "$renamed" >"$scratch/source.ln"
      [ "$(LNC=$lnc bin/why "$scratch/source.ln" | sed -n 's/^write: .* (for `\(.*\)`)$/\1/p')" = "$source" ] || echo "$renamed"
    done
  done)"
judge 'each kind of refusal has a meaning' "$(grep -oE '`error [a-z]+' docs/LANGUAGE.md | sed 's/.* //' | sort -u | grep -vE 'point|shape|many|header')" "$(
  sed -n '/^MEANS = {/,/^}/s/^    "\([a-z]*\)": .*/\1/p' bin/why | sort -u | grep -vE 'read|predicate|header')"
case_ 'why: an accepted source' 0 'orient sites 3 stages 30' '' "LNC=$lnc bin/why $orient"
case_ 'why: no file' 6 "error read: the file can't be read" '' "LNC=$lnc bin/why $scratch/nosuch"
case_ 'why: no such predicate' 4 'error predicate: the source has no predicate of this name: it has orient' '' "LNC=$lnc bin/why $orient nosuch"
case_ 'why: the header, and run takes it' 0 'z: a,a.t,c' '' "echo z: \$(LNC=$lnc bin/why examples/params/scaled.ln z) && LNC=$lnc bin/why examples/params/scaled.ln z | $lnc run examples/params/scaled.ln z /dev/stdin"
case_ 'why: no words' 2 '' "$(bin/why --help)" 'bin/why'
# rows: an empty line, quotes over two lines, CR LF and a byte order mark count as lnc counts them
{ printf '\357\273\277%s\r\n1,0,0,2,1,0,3,0,1\r\n\r\n' "$(head -1 "$rows")"; printf '1,2,3\n"1\n",0,0,2,1,0,3,0,1\n\n\n1,0,0,2,2000,0,3,0,1\n1,0,0,2,1.5,0,3,0,1\n1,0,0,1,1,0,"3",0,1'; } >"$scratch/rows.csv"
case_ 'why: invalid records' 3 "$scratch/rows.csv:4: ! fields: there are 3 fields, and the header has 9
$scratch/rows.csv:5: ! number p: field 1 is \"1?\", and a number is an optional - and digits
$scratch/rows.csv:9: ! range q.x: field 5 is \"2000\", and q.x is from -1000 to 1000
$scratch/rows.csv:10: ! number q.x: field 5 is \"1.5\", and a number is an optional - and digits
$scratch/rows.csv:11: ! index q: field 4 is \"1\", and an earlier site of the record has this index
6 records, 5 of them invalid" '' "LNC=$lnc bin/why $orient orient $scratch/rows.csv"
case_ 'why: another header' 3 "error header: the first line doesn't name the columns of this predicate
wanted: a,a.t,b,b.t
found:  $(head -1 "$rows")
first difference: column 1" '' "LNC=$lnc bin/why examples/squares/squares.ln s $rows"
case_ 'why: valid rows' 0 '6 records, 0 of them invalid' '' "LNC=$lnc bin/why $orient orient $rows"
# traces
"$lnc" explain "$orient" orient examples/orientation/same.csv >"$scratch/trace"
case_ 'why: a trace with names' 0 'trace 1
row 1
at : 0
at p.y^1 : 0
at p.x^1 : 0
at q.y^1 : 0
at p.x^1 q.y^1 : 1
sign +
agreed 1' '' "LNC=$lnc bin/why $orient orient examples/orientation/same.csv $scratch/trace"
case_ 'why: a wrong trace' 5 $'at p.x^1 q.y^1 : 2  <-- wrong\nwrong 7' '' "sed -i 's/3^1 : 1/3^1 : 2/' $scratch/trace; LNC=$lnc bin/why $orient orient examples/orientation/same.csv $scratch/trace >$scratch/said; s=\$?; grep wrong $scratch/said; exit \$s"

# the rows of gen: their signs are those that gen counts, and its first degenerate ones are where it says
of_gen() { # FILE NAME SEED COUNT
  case_ "the $4 rows that gen makes of $2 from $3" 0 'equal' '' "LNC=$lnc bin/rows $* >$scratch/made.csv && [ \$(wc -l <$scratch/made.csv) = $(($4 + 1)) ] &&
    $lnc run $1 $2 $scratch/made.csv | awk '{ sign[\$1]++; by[\$2 == \"F\" ? \"filter\" : \$2 == \"-\" ? \"none\" : \$2 ? \"stages\" : \"plain\"]++ } \$2 + 0 > deepest { deepest = \$2 + 0 }
      \$2 ~ /^[1-9]/ && n++ < 3 { first = first \" \" NR }
      END { print \"first\" first; print \"signs +\", sign[\"+\"] + 0, 0, sign[0] + 0, \"-\", sign[\"-\"] + 0
        print \"deciders filter\", by[\"filter\"] + 0, \"plain\", by[\"plain\"] + 0, \"stages\", by[\"stages\"] + 0, \"none\", by[\"none\"] + 0, \"deepest\", deepest + 0 }' >$scratch/once
    $lnc gen $* | sort | cmp - <(sort $scratch/once) && echo equal"
}
of_gen examples/incircle/incircle.ln incircle 1 20000
of_gen "$orient" orient 7 1
of_gen examples/squares/squares.ln s 123456789012345678 5000
of_gen examples/params/scaled.ln z 5 3000
of_gen "$insphere" insphere 3 2000
case_ 'rows that gen refuses' 0 '2 2 2 2 4 1 6' '' "for words in '$orient orient x 5' '$orient orient 1 0' '$orient orient 1 1000001' '$orient orient 1' '$orient nosuch 1 5' 'examples/limits/too_heavy.ln big 1 5' '$scratch/nosuch f 1 5'; do
  LNC=$lnc bin/rows \$words >/dev/null 2>&1; s=\"\$s\${s:+ }\$?\"; done; echo \$s"
