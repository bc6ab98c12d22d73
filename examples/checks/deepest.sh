# shellcheck shell=bash disable=SC2154  # examples/check, which reads this file, gives the names that stand for nothing here
# the deepest sources that are accepted (examples/checks/deepest.py), through every command with a stack of 4 MiB; bench/stack measures the
# least that each takes
deepest=$scratch/deepest; mkdir "$deepest"
python3 examples/checks/deepest.py "$deepest"
for source in "$deepest"/*.ln; do
  name=${source##*/}; name=${name%.ln}
  case_ "$name is checked with a stack of 4 MiB" 0 '1' '' "ulimit -s 4096; $program check $source | grep -c '^f sites 2 stages [0-9]*\$'"
  case_ "$name is listed" 0 '1' '' "ulimit -s 4096; $program list $source >$scratch/listing && grep -c ^done $scratch/listing"
  case_ "its listing is valid" 0 'valid' '' "ulimit -s 4096; $program verify $source $scratch/listing"
  case_ "$name is emitted" 0 'emitted' '' "(ulimit -s 4096; $program emit $source) >$scratch/it.c && gcc -std=gnu99 -O0 -c $scratch/it.c -o $scratch/it.o && echo emitted"
  case_ "$name is run" 0 'equal' '' "ulimit -s 4096; $program run $source f $deepest/rows.csv | cut -c1 >$scratch/once; cmp $scratch/once $deepest/$name.signs && echo equal"
  case_ "$name on rows that are made" 0 '1' '' "ulimit -s 4096; $program gen $source f 1 1000 | grep -c ^signs"
done
rm -rf "$deepest"
