# shellcheck shell=bash disable=SC2154  # examples/check, which reads this file, gives the names that stand for nothing here
# what is written for words, sources, rows and listings, by the tables commands_table.py, rules_table.py and
# signs_table.py; each group with the number of its cases. No allocation is refused
gcc -std=gnu11 -Wall -Wextra -Werror -O2 -shared -fPIC -o "$scratch/refusals.so" examples/checks/refusals.c
case_ 'what is written for words, sources and rows' 0 'each record has its line: 10 cases
powers, lets, minus and params are evaluated: 5 cases
filters decide above their error: 3 cases
sources are checked: 5 cases
sources are refused with their place: 9 cases
a difference of squares is accepted by its ranges: 4 cases
sizes and the whole are tested beside ranges: 4 cases
words and names that are none are told: 8 cases
a source over its limit is too long: 2 cases
each set of sixteen coordinates is a stage: 2 cases
each record of 200,000 bytes has its line: 1 cases' '' "python3 examples/checks/said.py $scratch/refusals.so $program commands_table"
case_ 'what is written for listings that are changed' 0 'each rule of either version fails alone: 160 cases
each rule of one version fails alone: 100 cases
numbers that are changed: 180 cases
lines that move: 256 cases
listings that are cut: 442 cases
two lines that are changed: 2 cases
what is listed is valid: 8 cases
listings are of their sources: 15 cases
polynomials have their limits: 4 cases
stacks have their limit: 2 cases
words and files of verify: 3 cases' '' "python3 examples/checks/said.py $scratch/refusals.so $program rules_table"
case_ 'what is written for signs in every form' 0 'each record has the sign of the product: 9 cases
predicates with other arguments are refused: 7 cases
words, names and arguments of a product are tested in order: 8 cases
a linear correction counts before any other: 4 cases
the list is cut within a degree: 4 cases
params alone leave a row undecided: 3 cases
insphere has a program by total degree: 1 cases
stages within the limits decide: 2 cases
more stages and what comes before the rows are refused: 6 cases
five rows at zero are perturbed: 3 cases
seeds and counts have their forms: 10 cases
steps before the rows decide first: 3 cases
even rows of a circle are nearly degenerate: 1 cases
hulls have their edges: 11 cases
files that are no points are refused: 12 cases
predicates of another shape are refused: 10 cases
at most 256 points are taken: 2 cases
too many records come before a bad one: 2 cases
rows are explained: 5 cases
traces are audited: 15 cases
incircle says what geometry says: 1 cases
insphere says what geometry says: 1 cases
insphere has 223 stages in each order: 1 cases' '' "python3 examples/checks/said.py $scratch/refusals.so $program signs_table"
