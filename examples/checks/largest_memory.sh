# shellcheck shell=bash disable=SC2154  # examples/check, which reads this file, gives the names that stand for nothing here
# inputs at the limits of each command, beside a plain program: status 9 only where an allocation was refused
gcc -std=gnu11 -Wall -Wextra -Werror -O2 -shared -fPIC -o "$scratch/refusals.so" examples/checks/refusals.c
largest="python3 examples/checks/largest_memory.py $scratch/refusals.so"
case_ 'the largest inputs of lnc' 0 'rows: 5 inputs
products: 2 inputs
fields: 2 inputs
traces: 5 inputs
edges: 1 inputs
blocks: 4 inputs
terms: 2 inputs
gen: 1 inputs' '' "$largest $program"
case_ 'the largest inputs of lnc_c' 0 'calls: 2 inputs' '' "$largest $(readlink -f "${LNC_C:-$(bin/lnc_c --path)}") calls"
