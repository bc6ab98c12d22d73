# shellcheck shell=bash disable=SC2154  # examples/check, which reads this file, gives the names that stand for nothing here
# listings and C
case_ 'the first line of a listing' 0 'listing 2' '' "$lnc list $orient | head -1"
case_ 'the first line of C' 0 '#include <stdint.h>' '' "$lnc emit $orient | head -1"
: >"$scratch/nothing.ln"
case_ 'the C of the orientation, byte for byte' 0 '' '' "$lnc emit $orient | cmp - examples/orientation/orient.c"
case_ 'a listing of nothing' 0 'listing 2' '' "$lnc list $scratch/nothing.ln"
case_ 'C of nothing' 0 '#include <stdint.h>' '' "$lnc emit $scratch/nothing.ln"
case_ 'the insphere listed within 10 seconds of processor and 500 MB' 0 'done' '' "ulimit -v 500000; ulimit -t 10; $lnc list $insphere >$scratch/long && tail -1 $scratch/long"
case_ 'the C of the insphere below 6 MB' 0 'below' '' "$lnc emit $insphere >$scratch/long && [ \$(wc -c <$scratch/long) -lt 6000000 ] && [ \$(wc -c <$scratch/long) -gt 100000 ] && echo below"
for sample in $samples; do
  for command in list emit; do
    case_ "$command of $sample: the same bytes twice" 0 'same' '' "$lnc $command examples/$sample.ln >$scratch/once && $lnc $command examples/$sample.ln >$scratch/twice && cmp $scratch/once $scratch/twice && [ -s $scratch/once ] && echo same"
  done
done

# listings are judged: those that were put, one of another source, one that is cut, one with a line changed, and what is none
for sample in $samples; do
  case_ "the listing of $sample is valid" 0 'valid' '' "$lnc list examples/$sample.ln >$scratch/listing && $lnc verify examples/$sample.ln $scratch/listing"
done
case_ 'the listing of the insphere judged within 20 seconds of processor and 500 MB' 0 'valid' '' "$lnc list $insphere >$scratch/long && ulimit -v 500000 && ulimit -t 20 && $lnc verify $insphere $scratch/long"
"$lnc" list "$orient" >"$scratch/listing"; lines=$(wc -l <"$scratch/listing")
case_ 'a listing of another source' 5 'invalid 2' '' "$lnc verify examples/squares/squares.ln $scratch/listing"
case_ 'a listing without its last line' 5 "invalid $lines" '' "head -n -1 $scratch/listing >$scratch/cut && $lnc verify $orient $scratch/cut"
case_ 'a listing without its last line feed' 5 "invalid $lines" '' "head -c -1 $scratch/listing >$scratch/cut && $lnc verify $orient $scratch/cut"
case_ 'a listing with its orders exchanged' 5 "invalid $((lines - 2))" '' "awk -v n=$lines 'NR == n - 2 { held = \$0; next } { print } NR == n - 1 { print held }' $scratch/listing >$scratch/cut && $lnc verify $orient $scratch/cut"
case_ 'an empty file as a listing' 5 'invalid 1' '' ": >$scratch/cut; $lnc verify $orient $scratch/cut"
case_ 'a listing needs its source' 2 '' 'error usage' "$lnc verify $orient"
case_ 'a listing that is not there' 6 '' 'error read' "$lnc verify $orient nosuch"
case_ 'a listing on a full device' 7 '' '' "$lnc verify $orient $scratch/listing >/dev/full"
