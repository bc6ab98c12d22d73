# shellcheck shell=bash disable=SC2154  # examples/check, which reads this file, gives the names that stand for nothing here
# memory: less than it takes, and nothing put; the system refuses an allocation, which refusals.c counts
gcc -std=gnu11 -Wall -Wextra -Werror -O2 -shared -fPIC -o "$scratch/refusals.so" examples/checks/refusals.c
head -c 33554432 /dev/zero | tr '\0' '\n' >"$scratch/large.csv"
while read -r what most words; do
  # shellcheck disable=SC2016  # the command's own variable
  case_ "no memory for $what" 9 'refused' '' "(ulimit -v $most; LD_PRELOAD=$scratch/refusals.so ASKED=$scratch/asked $program $words)"'; s=$?'"
    [ \$(cut -d' ' -f2 $scratch/asked) -gt 0 ] && echo refused; exit \$s"
done <<CASES
rows 24000 run $orient orient $scratch/large.csv
listing 5000 list $insphere
C 5000 emit $insphere
CASES
rm -f "$scratch/large.csv"
case_ 'each of the first 50 allocations of each command refused' 0 '24 cases: each as required' '' "LNC=$program bench/memory first 50 lnc | tail -1"
calls=$(readlink -f "${LNC_C:-$(bin/lnc_c --path)}")
case_ 'each allocation of lnc_c refused' 0 '7 cases: each as required' '' "LNC=$program LNC_C=$calls bench/memory first 1000 lnc_c | tail -1"

# signals: none is caught
mkfifo "$scratch/pipe"
case_ 'no signal is caught' 0 'SigCgt: 0000000000000000' '' "$program check $scratch/pipe & sleep 0.3; awk '/^SigCgt/ { print \$1, \$2 }' /proc/\$!/status; echo >$scratch/pipe; wait"
